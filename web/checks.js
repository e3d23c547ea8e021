// The checks of a program with what the bounds say of them, as a list.
import { checkAt, placeOf } from './editor.js';
import { at, counted, element } from './parts.js';

/** The text of a check, such as `assert(x == y)`. */
function wordsOf(check, text) {
    const found = checkAt(text, placeOf(text, check.line, check.column)).replace(/\s+/g, ' ');
    return found.length > 120 ? `${found.slice(0, 119)}\u2026` : found;
}

/** How deep in blocks a text ends, and how deep it ever is, from the depth of its beginning. */
function depths(code) {
    let [depth, least] = [0, 0];
    for (const sign of code) {
        depth += sign === '{' ? 1 : sign === '}' ? -1 : 0;
        least = Math.min(least, depth);
    }
    return { depth, least };
}

/** What stands between the beginning of a point's line and a check behind the point: of a join the end of its branches. */
const SIGNS = { loop: /\b(?:while|for|do)\b/, label: /:/, assume: /assume/, join: /[;}]\s*$/ };

/**
 * The point that a run passes last before a check, as far as the text alone tells: the nearest one before it in no block that ends before it;
 * else the entry.
 */
export function pointBefore(points, check, text) {
    const end = placeOf(text, check.line, check.column);
    const isBefore = ({ kind, line }) => {
        if (!SIGNS[kind] || line > check.line) return false;
        const code = text.slice(placeOf(text, line, 1), end).replace(/\/\/[^\n]*|\/\*[\s\S]*?\*\//g, '').replace(/^\s*\}/, '');
        const { depth, least } = depths(code);
        return least === 0 && SIGNS[kind].test(code) && (kind !== 'join' || depth === 0);
    };
    const found = points.filter(isBefore).sort((one, other) => other.line - one.line || other.number - one.number);
    return found[0] ?? points[0];
}

/** What an open check means, and what may help. */
function explained(check, show) {
    const part = element('div', 'why');
    const [begin, state] = check.stateText ? ['The bounds leave the state ', check.stateText] : ['The bounds leave a state', ''];
    const means = element('p', '', begin);
    means.append(element('b', '', state), ' here, in which the condition may be false. It needn\u2019t be a state of a run, nor whole.');
    part.append(means);
    part.append(element('p', '', 'Where the condition is true: rows that see more may prove it (zones see differences, octagons sums, too), or an '
        + 'assertion before it that says what a loop keeps, or fewer labels on the way.'));
    if (check.state.size) {
        const button = Object.assign(element('button', '', 'Show in the picture'), { type: 'button' });
        button.addEventListener('click', () => show(check));
        part.append(button);
    }
    return part;
}

function row(check, text, { goTo, show }) {
    const made = element('li');
    const button = Object.assign(element('button', 'check'), { type: 'button' });
    const verdict = check.proved ? element('span', 'proved', 'proved') : element('span', 'open', 'open');
    button.append(verdict, element('code', '', wordsOf(check, text)), element('span', 'place', `line ${check.line}, column ${check.column}`));
    button.addEventListener('click', () => goTo(check));
    made.append(button);
    if (!check.proved) made.append(explained(check, show));
    return made;
}

/** How many checks are proved, in words. */
export function toldOf(checks) {
    if (!checks.length) return '';
    return `${checks.filter((check) => check.proved).length} of ${counted(checks.length, 'check')} proved. `;
}

/** Lists the checks of a text: `goTo` goes to a check's place, `show` shows its state. `said` stands above them. */
export function showChecks({ checks, written, said }, text, doing) {
    const open = checks.filter((check) => !check.proved).length;
    at('tab-checks').replaceChildren('Checks', ...(open ? [' ', element('span', 'count', `${open} open`)] : []));
    at('check-said').textContent = said;
    at('check-said').hidden = !said;
    at('check-list').replaceChildren(...checks.map((check) => row(check, text, doing)));
    at('verdicts').hidden = !written;
    at('verdict-text').textContent = written;
}
