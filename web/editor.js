// The program's text: painted behind a text area, with line numbers at its left and notes behind its lines.
import { element } from './parts.js';

const TOKENS =
    /(\/\/[^\n]*|\/\*[\s\S]*?(?:\*\/|$))|\b(int|void|main|if|else|while|do|for|break|continue|return|assume|assert|nondet|const|static|extern|__VERIFIER_\w+)\b|\b(\d\w*)|^([ \t]*)([A-Za-z_]\w*)(?=[ \t]*:)|[A-Za-z_]\w*/gm;

/** Pieces of a text in turn, each with the class that it is painted in. */
export function pieces(text) {
    const found = [];
    let behind = 0;
    const put = (from, to, kind) => {
        if (to > from) found.push({ from, to, kind });
    };
    for (const match of text.matchAll(TOKENS)) {
        const [whole, comment, word, number, indent, label] = match;
        const kind = comment ? 'comment' : word ? 'word' : number ? 'number' : label ? 'name' : '';
        if (!kind) continue;
        const from = match.index + (indent?.length ?? 0);
        put(behind, from, '');
        put(from, match.index + whole.length, kind);
        behind = match.index + whole.length;
    }
    put(behind, text.length, '');
    return found;
}

/** A check as it stands in the text from a place on, such as `assert(x == y)`. */
export function checkAt(text, from) {
    return /^[^;]*?(?=\s*(?:;|$))/.exec(text.slice(from, from + 4000))[0];
}

/** The lines of a text as bytes count them: the place of a byte in a line, as a place in the string. */
function placeInLine(line, column) {
    let bytes = 1;
    let place = 0;
    for (const sign of line) {
        if (bytes >= column) break;
        bytes += new TextEncoder().encode(sign).length;
        place += sign.length;
    }
    return place;
}

/** The place in a text of a line, from 1, and of a byte in it, from 1; the text's end where it has no such line. */
export function placeOf(text, line, column) {
    const lines = text.split('\n');
    if (line > lines.length) return text.length;
    const before = lines.slice(0, line - 1).reduce((sum, one) => sum + one.length + 1, 0);
    return before + placeInLine(lines[line - 1], column);
}

export class Editor {
    /** `changed` is called where a person writes, `choose` with the number of a point that is pointed at, `ask` with a check. */
    constructor(root, { changed, choose, ask }) {
        this.root = root;
        this.area = root.querySelector('textarea');
        this.gutter = root.querySelector('.gutter');
        this.paper = root.querySelector('.paint');
        this.notes = root.querySelector('.notes');
        this.marks = { notes: [], checks: [], fault: null, chosen: null, stale: false };
        this.choose = choose;
        this.ask = ask;
        this.area.addEventListener('input', () => {
            this.marks = { ...this.marks, fault: null, checks: [], stale: true };
            this.paint();
            changed();
        });
        this.area.addEventListener('click', () => this.pointAtCaret());
        this.area.addEventListener('keydown', (event) => this.indent(event));
        // Notes end where the text that is seen ends, however long other lines are.
        const seen = () => this.notes.style.setProperty('--seen', `${root.clientWidth - this.gutter.offsetWidth}px`);
        new ResizeObserver(seen).observe(root);
        new ResizeObserver(seen).observe(this.gutter);
        this.gutter.addEventListener('click', (event) => {
            const at = [...this.gutter.children].indexOf(event.target) + 1;
            const note = this.marks.notes.find(({ line }) => line === at);
            if (note) choose(note.point);
        });
    }

    get text() {
        return this.area.value;
    }

    set text(text) {
        this.area.value = text;
        this.marks = { notes: [], checks: [], fault: null, chosen: null, stale: false };
        this.paint();
        this.root.scrollTo(0, 0);
        this.area.setSelectionRange(0, 0);
    }

    /** Shows notes ({line, point, name, text}), checks ({line, column, proved, text}) and a fault ({line, text}); what isn't named stays. */
    show(marks) {
        this.marks = { ...this.marks, stale: false, ...marks };
        this.paint();
    }

    /** Marks the line of the point that is chosen, and brings it into sight. */
    chooseLine(line, point) {
        this.marks.chosen = { line, point };
        this.paint();
        if (line !== null) this.reveal(line);
    }

    reveal(line) {
        const row = this.paper.children[line - 1];
        if (!row) return;
        const [top, bottom] = [row.offsetTop, row.offsetTop + row.offsetHeight];
        const { scrollTop, clientHeight } = this.root;
        if (top < scrollTop || bottom > scrollTop + clientHeight) this.root.scrollTop = top - clientHeight / 2;
    }

    /** Puts the caret to a place, counted in bytes of the line, from 1. */
    goTo(line, column = 1) {
        const place = placeOf(this.text, line, column);
        this.area.focus({ preventScroll: true });
        this.area.setSelectionRange(place, place);
        this.reveal(line);
    }

    pointAtCaret() {
        if (this.marks.stale || this.area.selectionStart !== this.area.selectionEnd) return;
        const line = this.text.slice(0, this.area.selectionStart).split('\n').length;
        const here = this.marks.notes.filter((note) => note.line === line);
        if (here.length && !here.some((note) => note.point === this.marks.chosen?.point)) this.choose(here[0].point);
    }

    /** A new line begins where the one before begins, or further in behind a brace. */
    indent(event) {
        if (event.key !== 'Enter' || event.ctrlKey || event.metaKey || event.altKey || event.isComposing) return;
        const line = this.text.slice(0, this.area.selectionStart).split('\n').at(-1);
        const blanks = /^[ \t]*/.exec(line)[0] + (/\{\s*$/.test(line) ? '    ' : '');
        if (!blanks) return;
        event.preventDefault();
        // This way the browser can undo it.
        document.execCommand('insertText', false, `\n${blanks}`);
    }

    /** The classes that marks give to the token at each place: [from, to, class]. */
    underlined(lines) {
        const { checks, fault } = this.marks;
        const found = checks.flatMap((check) => {
            const from = placeOf(this.text, check.line, check.column);
            // Each line of it, without the blanks before.
            const parts = checkAt(this.text, from).matchAll(/\S.*/g);
            const kind = check.proved ? 'proved-check' : 'open-check';
            return [...parts].map((part) => [from + part.index, from + part.index + part[0].length, kind]);
        });
        if (fault?.line && fault.line <= lines.length) {
            const line = lines[fault.line - 1];
            const start = placeOf(this.text, fault.line, 1);
            const from = start + (line.length - line.trimStart().length);
            found.push([from, Math.max(from + 1, start + line.trimEnd().length), 'faulty']);
        }
        return found;
    }

    paint() {
        const text = this.text;
        const lines = text.split('\n');
        const { notes, checks, fault, chosen, stale } = this.marks;
        this.paintText(text, lines);
        this.gutter.replaceChildren(
            ...lines.map((_, at) => {
                const hasPoint = notes.some((note) => note.line === at + 1);
                const classes = [hasPoint && 'at-point', chosen?.line === at + 1 && 'chosen', fault?.line === at + 1 && 'faulty'];
                return element('div', classes.filter((name) => name).join(' '), String(at + 1));
            }),
        );
        this.notes.classList.toggle('stale', stale);
        this.notes.replaceChildren(...lines.map((line, at) => this.lineOfNotes(line, at + 1, { notes, checks, fault, chosen })));
    }

    paintText(text, lines) {
        const marked = this.underlined(lines);
        const cuts = new Set(marked.flatMap(([from, to]) => [from, to]));
        const rows = [element('div', 'line')];
        const put = (part, kind, from) => {
            const span = kind ? element('span', kind, part) : document.createTextNode(part);
            const mark = marked.find(([start, end]) => start <= from && from < end);
            if (mark) {
                const under = element('span', mark[2]);
                under.append(span);
                rows.at(-1).append(under);
            } else {
                rows.at(-1).append(span);
            }
        };
        for (const { from, to, kind } of pieces(text)) {
            let begun = from;
            for (let at = from; at <= to; at += 1) {
                const isFeed = text[at] === '\n' && at < to;
                if (at !== to && !isFeed && !(cuts.has(at) && at > begun)) continue;
                if (at > begun) put(text.slice(begun, at), kind, begun);
                begun = at;
                if (isFeed) {
                    rows.push(element('div', 'line'));
                    begun = at + 1;
                }
            }
        }
        const { chosen } = this.marks;
        if (chosen?.line) rows[chosen.line - 1]?.classList.add('chosen');
        this.paper.replaceChildren(...rows);
    }

    lineOfNotes(line, number, { notes, checks, fault, chosen }) {
        const row = element('div', 'line');
        const tips = element('span', 'tips');
        if (fault?.line === number) tips.append(element('span', 'tip bad', fault.text));
        for (const check of checks.filter((one) => one.line === number && !one.proved)) {
            const tip = Object.assign(element('button', 'tip open'), { type: 'button', tabIndex: -1, title: `${check.kind}: ${check.text}` });
            tip.append(element('b', '', check.kind), check.text);
            tip.addEventListener('click', () => this.ask(check));
            tips.append(tip);
        }
        for (const note of notes.filter((one) => one.line === number)) {
            const classes = note.point === chosen?.point ? 'tip chosen' : 'tip';
            const tip = Object.assign(element('button', classes), { type: 'button', tabIndex: -1, title: note.text });
            tip.append(element('b', '', note.name), note.text);
            tip.addEventListener('click', () => this.choose(note.point));
            tips.append(tip);
        }
        if (tips.childElementCount) row.append(element('span', 'space', line), tips);
        return row;
    }
}
