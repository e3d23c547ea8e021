// The page: a program's text beside its least bounds.
import { noteText, showBounds } from './bounds.js';
import { pointBefore, showChecks, toldOf } from './checks.js';
import { Editor } from './editor.js';
import { bytesOf, read, unpacked, written } from './link.js';
import { at, counted, element, flash, save } from './parts.js';
import { Program, Stopped } from './program.js';
import { pairRows, pointName, readMessage, readReport, readVerdicts, summary } from './report.js';
import { domain, now } from './state.js';
import { chooseTab, connectTabs } from './tabs.js';
import { connectView, showPicture, showVariables } from './view.js';

const bytes = (text) => new TextEncoder().encode(text);
const text = (content) => new TextDecoder().decode(content);

/** As many as the program takes: a person stops what goes on for too long. */
const MOST_IMPROVEMENTS = '1000000';

let program = null;
let waiting = null;
let ticking = null;

// ---- what is asked

/** The words of a command over the program's text, and the contents of the files that they name. */
function question(command, more = []) {
    const contents = [bytes(editor.text)];
    const words = [command, 'program'];
    if (command === 'check') {
        words.push('certificate');
    } else {
        words.push('--domain', domain(), '--policy', at('policy').value, '--improvements', MOST_IMPROVEMENTS);
        if (domain() === 'rows') {
            words.push('--rows', 'rows');
            contents.push(bytes(at('rows').value));
        }
    }
    return { words, contents: [...contents, ...more] };
}

function ask({ words, contents }, told) {
    return program.ask(words, contents, told);
}

// ---- how it stands

function say(kind, message) {
    at('state').dataset.kind = kind;
    at('said').textContent = message;
}

const seconds = (milliseconds) =>
    milliseconds < 950 ? `${Math.max(1, Math.round(milliseconds))} ms` : `${(milliseconds / 1000).toFixed(1)} s`;

/** Shows that the program is at work, and how far it is, until this is called off. */
function showWork(what) {
    const begun = performance.now();
    let far = '';
    const show = () => {
        const passed = performance.now() - begun;
        if (passed < 250) return;
        say('working', `${what} ${far}${far ? ', ' : ''}${seconds(passed)}`);
        showOld();
    };
    at('run').textContent = 'Stop';
    clearInterval(ticking);
    ticking = setInterval(show, 100);
    return (progress) => {
        const { round, raised, turn, pivots } = progress;
        const parts = [round && `round ${round}`, raised && `${counted(raised, 'bound')} raised`];
        if (turn) parts.push(`turn ${turn}`);
        if (pivots) parts.push(counted(pivots, 'pivot'));
        far = parts.filter((part) => part).join(', ');
        show();
    };
}

function workEnds() {
    clearInterval(ticking);
    at('run').textContent = 'Run';
}

/** What is done where work ends otherwise than by an answer: `broken` says so, and other work in its place goes on. */
function workBreaks(error, broken) {
    const isStopped = error instanceof Stopped;
    if (isStopped && program.busy) return;
    workEnds();
    showOld();
    if (isStopped) say('idle', 'Stopped.');
    else broken(`The program broke off: ${error.message}`);
}

/** Whether a text may have checks: assertions, indexes, divisors, places that aren’t to be reached. */
const mayHaveChecks = (program) => /assert|[[/%]|reach_error|__VERIFIER_error/.test(program);

/** Runs the program over what is open: for the bounds, and behind these for the verdicts on checks. */
async function run() {
    clearTimeout(waiting);
    if (!program) return;
    at('certificate-said').textContent = '';
    const asked = mayHaveChecks(editor.text);
    try {
        const answer = await ask(question('solve'), showWork('At work:'));
        if (answer.status !== 0) {
            workEnds();
            showRefusal(answer.message);
            return;
        }
        showReport(text(answer.output), answer.milliseconds);
        showVerdicts(asked ? await ask(question('verify'), showWork('The checks:')) : null);
        workEnds();
    } catch (error) {
        workBreaks(error, (message) => say('refused', message));
    }
}

function runSoon() {
    now.fresh = false;
    clearTimeout(waiting);
    if (program?.busy) program.stop();
    waiting = setTimeout(run, 300);
}

/** What refuses a text, as a sentence. */
function refusal(subject, cause, line) {
    const place = line ? ` in line ${line}` : '';
    if (subject === 'rows') return `The rows: ${cause}${place}.`;
    const said = cause || 'no answer';
    return `${said[0].toUpperCase()}${said.slice(1)}${place}.`;
}

function showRefusal(message) {
    const { subject, cause, line } = readMessage(message);
    const words = refusal(subject, cause, line);
    say('refused', words);
    at('state').title = message.trim();
    at('rows-fault').hidden = subject !== 'rows';
    at('rows-fault').textContent = words;
    const isHere = subject === 'program' && line;
    editor.show({ notes: [], chosen: null, checks: [], fault: isHere ? { line, text: cause } : null });
    now.fresh = false;
    showStale(true);
}

/** Where what is shown isn't of what is asked, says so, and takes its marks from the text. */
function showOld() {
    if (now.fresh || !now.report || !at('before').hidden) return;
    editor.show({ notes: [], chosen: null, checks: [], fault: null });
    showStale(true);
}

/** Softens what is shown of a text that has changed since. */
function showStale(isStale) {
    document.querySelector('.result').classList.toggle('before', isStale && now.report !== null);
    at('before').hidden = !isStale || !now.report;
}

// ---- what is found

/** The line behind which the note of a point stands: that of the exit is the last one with a brace. */
function lineOf(point) {
    if (point.kind !== 'exit') return point.line;
    const lines = editor.text.split('\n');
    const last = lines.findLastIndex((line) => line.includes('}'));
    return last < 0 ? null : last + 1;
}

const KINDS = { loop: 'loop', join: 'join', assume: 'assume', exit: 'exit' };

/** Rows of a ready-made domain say by themselves what all together leave for two variables, but for packs, which may have no row of these. */
const isClosed = () => domain() !== 'rows' && domain() !== 'packs';

const NO_CHECKS = 'Write assert(\u2026); where something is to hold, and see here whether the bounds prove it.';

function showReport(reportText, milliseconds) {
    const report = readReport(reportText);
    const isNew = now.begins || now.report?.points.length !== report.points.length;
    Object.assign(now, { report, reportText, pairs: pairRows(report.rows), closed: isClosed(), fresh: true, begins: false });
    if (isNew || now.point >= report.points.length) now.point = firstPoint(report);
    const rounds = /improvements: (\d+)/.exec(report.ending)?.[1];
    now.found = `Least bounds after ${counted(Number(rounds), 'improvement')}, in ${seconds(milliseconds)}.`;
    say('done', now.found);
    showAll([]);
    showChecks({ checks: [], written: '', said: 'The checks aren\u2019t judged yet.' }, editor.text, checkDoing);
}

/** Shows what stands in `now`. */
function showAll(checks) {
    at('state').dataset.open = false;
    at('state').title = '';
    at('rows-fault').hidden = true;
    at('report-text').textContent = now.reportText;
    showStale(false);
    showNotes(checks);
    showPoints();
    showVariables();
    choosePoint(now.point);
}

/** Shows the verdicts on checks: an answer to `verify`, or null where the text has no checks. */
function showVerdicts(answer) {
    const judged = answer === null || answer.status === 0 || answer.status === 10;
    const checks = answer && judged ? readVerdicts(text(answer.output)) : [];
    const fault = judged ? '' : `The checks aren\u2019t judged: ${answer.message.trim()}.`;
    at('state').dataset.open = !judged || answer?.status === 10;
    say('done', `${toldOf(checks)}${now.found}${fault && ` ${fault}`}`);
    showNotes(checks);
    const writtenText = answer && judged ? text(answer.output) : '';
    showChecks({ checks, written: writtenText, said: fault || (checks.length ? '' : NO_CHECKS) }, editor.text, checkDoing);
}

/** The first point that says something: a loop or a label, else the exit. */
function firstPoint({ points }) {
    const found = points.findIndex((point) => point.reachable && ['loop', 'label'].includes(point.kind));
    return found < 0 ? points.length - 1 : found;
}

function showNotes(checks) {
    const notes = now.report.points
        .filter((point) => point.kind !== 'entry')
        .map((point) => ({
            point: point.number,
            line: lineOf(point),
            name: point.kind === 'label' ? point.name : KINDS[point.kind],
            text: noteText(now.pairs, point),
        }));
    editor.show({ notes: notes.filter((note) => note.line), checks, fault: null });
}

function showPoints() {
    at('points').replaceChildren(
        at('points').firstElementChild,
        ...now.report.points.map((point) => {
            const label = element('label', point.reachable ? '' : 'unreached');
            const input = Object.assign(element('input'), { type: 'radio', name: 'point', value: point.number });
            input.checked = point.number === now.point;
            input.setAttribute('aria-label', `${pointName(point)}: ${summary(now.pairs, point).join(', ') || 'no bounds'}`);
            input.addEventListener('change', () => choosePoint(point.number));
            label.append(input, element('span', '', pointName(point)));
            return label;
        }),
    );
}

/** Shows a point, with the state of an open check where one is given. */
function choosePoint(number, check = null) {
    now.point = number;
    now.mark = check;
    const point = now.report.points[number];
    for (const input of at('points').querySelectorAll('input')) input.checked = Number(input.value) === number;
    const isBefore = document.querySelector('.result').classList.contains('before');
    editor.chooseLine(point.kind === 'entry' || isBefore ? null : lineOf(point), number);
    showBounds(now.pairs, point);
    showPicture();
}

// ---- checks

const checkDoing = {
    goTo: (check) => editor.goTo(check.line, check.column),
    show: showState,
};

/** Shows the state of an open check in the picture, with the bounds at the point before it. */
function showState(check) {
    const names = [...check.state.keys()].filter((name) => now.report.variables.includes(name));
    if (!names.includes(now.across)) now.across = names.find((name) => name !== now.up) ?? now.across;
    if (!names.includes(now.up)) now.up = names.find((name) => name !== now.across) ?? now.up;
    showVariables();
    choosePoint(pointBefore(now.report.points, check, editor.text).number, check);
    chooseTab(at('tab-bounds'));
    showPicture();
    at('tab-bounds').focus();
}

// ---- certificates and files

const plainName = () => now.name.replace(/\.[^.]*$/, '');

function verdict(kind, message) {
    at('certificate-said').className = `verdict ${kind}`;
    at('certificate-said').textContent = message;
}

/** Asks about a certificate, and says how that ends. */
async function askCertificate(asked, done) {
    verdict('', '');
    try {
        const answer = await ask(asked, showWork('At work:'));
        workEnds();
        if (answer.status === 0) done(answer);
        else verdict('bad', `${withoutEnd(answer.message)}.`);
        if (at('state').dataset.kind === 'working') say('done', 'Done.');
    } catch (error) {
        workBreaks(error, (message) => verdict('bad', message));
    }
}

const withoutEnd = (message) => {
    const words = message.trim();
    return words[0].toUpperCase() + words.slice(1);
};

function certify() {
    askCertificate(question('certify'), ({ output }) => {
        save(`${plainName()}.cert`, output, 'application/json');
        verdict('good', `Saved as ${plainName()}.cert, ${counted(output.length, 'byte')}.`);
    });
}

async function check(file) {
    const certificate = new Uint8Array(await file.arrayBuffer());
    askCertificate(question('check', [certificate]), ({ output }) => {
        const report = readReport(text(output));
        const rows = counted(report.rows.length, 'row');
        verdict('good', `${file.name} is accepted: these are the least bounds of the program over ${rows}. They are shown as its report.`);
        showChecked(report, text(output));
    });
}

/** Shows the bounds of a certificate in place of those that were found. */
function showChecked(report, reportText) {
    Object.assign(now, { report, reportText, pairs: pairRows(report.rows), closed: false, fresh: true, begins: false });
    now.point = Math.min(now.point, report.points.length - 1);
    say('done', 'Certificate accepted: these bounds are the least ones over its rows.');
    showAll([]);
    showChecks({ checks: [], written: '', said: 'Bounds of a certificate are shown. Run judges the checks.' }, editor.text, checkDoing);
}

async function open(file) {
    now.name = file.name;
    at('example').value = '';
    show({ text: text(new Uint8Array(await file.arrayBuffer())) });
}

/** Shows a program with its settings. */
function show(what) {
    editor.text = what.text;
    Object.assign(now, { fresh: false, begins: true });
    if (what.domain) {
        const wanted = document.querySelector(`input[name=domain][value="${CSS.escape(what.domain)}"]`);
        if (wanted) wanted.checked = true;
    }
    if (what.rows !== undefined) at('rows').value = what.rows;
    if (['best', 'first'].includes(what.policy)) at('policy').value = what.policy;
    now.across = what.across ?? null;
    now.up = what.up ?? null;
    at('rows-part').hidden = domain() !== 'rows';
    run();
}

async function share() {
    const what = { text: editor.text, name: now.name, domain: domain(), policy: at('policy').value, across: now.across, up: now.up };
    if (domain() === 'rows') what.rows = at('rows').value;
    history.replaceState(null, '', `#${await written(what)}`);
    try {
        await navigator.clipboard.writeText(location.href);
        flash(at('share'), 'Copied');
    } catch {
        flash(at('share'), 'In the address');
    }
}

async function showLinked() {
    const what = await read(location.hash);
    if (typeof what?.text !== 'string') return false;
    now.name = typeof what.name === 'string' ? what.name : 'program.c';
    at('example').value = '';
    show(what);
    return true;
}

// ---- keys

function stepPoint(by) {
    if (!now.report) return;
    const count = now.report.points.length;
    choosePoint((now.point + by + count) % count);
}

function pressed(event) {
    if (event.altKey && (event.key === 'ArrowUp' || event.key === 'ArrowDown')) {
        event.preventDefault();
        stepPoint(event.key === 'ArrowUp' ? -1 : 1);
    }
    if ((event.ctrlKey || event.metaKey) && event.key === 'Enter') {
        event.preventDefault();
        run();
    }
}

// ---- the beginning

function textChanges() {
    at('example').value = '';
    runSoon();
}

const editor = new Editor(at('editor'), { changed: textChanges, choose: (number) => choosePoint(number), ask: showState });

function connect() {
    for (const input of at('settings').querySelectorAll('input, select')) {
        input.addEventListener('change', () => {
            at('rows-part').hidden = domain() !== 'rows';
            if (domain() === 'rows' && !at('rows').value.trim()) at('rows').value = firstRows();
            runSoon();
        });
    }
    at('settings').addEventListener('submit', (event) => event.preventDefault());
    at('rows').addEventListener('input', runSoon);
    at('run').addEventListener('click', () => (program?.busy ? program.stop() : run()));
    at('open').addEventListener('click', () => at('opened').click());
    at('opened').addEventListener('change', () => {
        if (at('opened').files[0]) open(at('opened').files[0]);
        at('opened').value = '';
    });
    at('share').addEventListener('click', share);
    at('certify').addEventListener('click', certify);
    at('check').addEventListener('click', () => at('checked').click());
    at('checked').addEventListener('change', () => {
        if (at('checked').files[0]) check(at('checked').files[0]);
        at('checked').value = '';
    });
    at('copy-report').addEventListener('click', async () => {
        try {
            await navigator.clipboard.writeText(now.reportText);
            flash(at('copy-report'), 'Copied');
        } catch {
            getSelection().selectAllChildren(at('report-text'));
        }
    });
    at('save-report').addEventListener('click', () => save(`${plainName()}.report`, now.reportText));
    connectView();
    document.addEventListener('keydown', pressed);
    addEventListener('hashchange', showLinked);
    at('editor').addEventListener('dragover', (event) => event.preventDefault());
    at('editor').addEventListener('drop', (event) => {
        if (!event.dataTransfer.files[0]) return;
        event.preventDefault();
        open(event.dataTransfer.files[0]);
    });
}

/** Rows to begin with: each variable of the report from both sides. */
function firstRows() {
    const names = now.report?.variables ?? [];
    return names.map((name) => `${name}\n-${name}\n`).join('');
}

function showExamples() {
    const examples = JSON.parse(at('examples').textContent);
    for (const { name, title } of examples) at('example').append(Object.assign(element('option', '', title), { value: name }));
    at('example').addEventListener('change', () => {
        const found = examples.find(({ name }) => name === at('example').value);
        if (!found) return;
        now.name = found.name;
        history.replaceState(null, '', location.pathname + location.search);
        show({ text: found.text });
    });
    return examples;
}

/** Compiles the program. */
async function ready() {
    const packed = bytesOf(at('module').textContent.trim());
    const compiled = await WebAssembly.compile(await unpacked(packed));
    const made = new Program(at('worker').textContent, compiled);
    at('run').disabled = false;
    program = made;
}

async function begin() {
    connectTabs((tab) => {
        if (tab.id === 'tab-bounds') showPicture();
    });
    connect();
    const examples = showExamples();
    if (!(await showLinked())) {
        const first = examples.find(({ name }) => name === 'sum.c') ?? examples[0];
        at('example').value = first.name;
        now.name = first.name;
        show({ text: first.text });
    }
    try {
        await ready();
        run();
    } catch (error) {
        const needs = 'WebAssembly with 64-bit memory: Chrome, Edge and their like from 133 on, Firefox from 134 on';
        say('refused', `This browser can\u2019t run the program, which needs ${needs}. (${error.message})`);
    }
}

begin();
