// Reports and verdicts as the program writes them (docs/FORMATS.md), and what they say in short.
import { Fraction, ZERO } from './fraction.js';

/** A row such as `x - 2*y` as coefficients over the variables. */
export function readRow(text, variables) {
    const coefficients = variables.map(() => 0n);
    for (const [, sign, factor, name] of text.matchAll(/([+-]?)\s*(?:(\d+)\*)?([A-Za-z_]\w*)/g)) {
        const place = variables.indexOf(name);
        if (place >= 0) coefficients[place] += (sign === '-' ? -1n : 1n) * BigInt(factor ?? 1);
    }
    return coefficients;
}

/** The point that a head such as `point 1: loop at line 3` tells of. */
function readHead(line) {
    const found = /^point (\d+): (entry|loop|label|join|assume|exit)(?: (\w+))?(?: at line (\d+))?$/.exec(line);
    if (!found) return null;
    const at = found[4] ? Number(found[4]) : null;
    const name = found[2] === 'label' ? found[3] : null;
    return { number: Number(found[1]), kind: found[2], name, line: at, reachable: true, bounds: [] };
}

/**
 * What a report says: its variables, its rows with their text and coefficients, and its points with a bound for each row, which is a
 * fraction or, without bound, null. `ending` is its last line.
 */
export function readReport(text) {
    const lines = text.split('\n');
    const variables = lines[0].split(' ').slice(1);
    const points = [];
    const rows = [];
    let ending = '';
    for (const line of lines.slice(1)) {
        const head = readHead(line);
        const bound = /^ {2}(.+) <= (\S+)$/.exec(line);
        if (head) {
            points.push(head);
        } else if (line === '  unreachable') {
            points.at(-1).reachable = false;
        } else if (bound) {
            const at = points.at(-1).bounds.push(bound[2] === '+inf' ? null : Fraction.read(bound[2])) - 1;
            if (at === rows.length) rows.push({ text: bound[1], coefficients: readRow(bound[1], variables) });
        } else if (line) {
            ending = line;
        }
    }
    return { variables, rows, points, ending };
}

/** A name of a point for people. */
export function pointName({ kind, name, line }) {
    if (kind === 'entry') return 'Entry';
    if (kind === 'exit') return 'Exit';
    const word = { loop: 'Loop', label: `Label ${name}`, join: 'Join', assume: 'Assumption' }[kind];
    return `${word}, line ${line}`;
}

/** A text with true signs in place of those of a keyboard. */
export const withSigns = (text) => text.replaceAll('-', '\u2212').replaceAll('*', '\u202f\u00b7\u202f');

/**
 * Rows that are opposite, together: each with its `text`, the places of its coefficients, and the places of the row itself and of its
 * opposite, -1 where there is none.
 */
export function pairRows(rows) {
    const keyOf = (coefficients) => coefficients.join();
    const places = new Map(rows.map((row, at) => [keyOf(row.coefficients), at]));
    const pairs = [];
    rows.forEach((row, at) => {
        const opposite = places.get(keyOf(row.coefficients.map((number) => -number))) ?? -1;
        if (places.get(keyOf(row.coefficients)) !== at || (opposite >= 0 && opposite < at)) return;
        pairs.push({ text: row.text, coefficients: row.coefficients, above: at, below: opposite });
    });
    return pairs;
}

/** The greatest value that bounds of single variables alone leave a row; null where there is none. */
function byRanges(coefficients, ranges) {
    let sum = ZERO;
    for (const [at, number] of coefficients.entries()) {
        if (number === 0n) continue;
        const end = number > 0n ? ranges[at].high : ranges[at].low;
        if (end === null) return null;
        sum = sum.plus(new Fraction(number).times(end));
    }
    return sum;
}

/**
 * What the bounds of a point say of each pair of rows: at least `low`, at most `high`, null where there is no bound. `least` and `most` are
 * what the ranges of single variables say of it.
 */
export function relations(pairs, bounds) {
    const found = pairs.map((pair) => ({
        ...pair,
        high: bounds[pair.above],
        low: pair.below >= 0 ? (bounds[pair.below]?.opposite() ?? null) : null,
    }));
    const ranges = pairs.length ? pairs[0].coefficients.map(() => ({ low: null, high: null })) : [];
    for (const { coefficients, low, high } of found) {
        const used = coefficients.flatMap((number, at) => (number === 0n ? [] : [at]));
        if (used.length !== 1 || (coefficients[used[0]] !== 1n && coefficients[used[0]] !== -1n)) continue;
        const isPlain = coefficients[used[0]] === 1n;
        const range = ranges[used[0]];
        range.high ??= isPlain ? high : (low?.opposite() ?? null);
        range.low ??= isPlain ? low : (high?.opposite() ?? null);
    }
    return found.map((relation) => {
        const { coefficients } = relation;
        const single = coefficients.filter((number) => number !== 0n).length === 1;
        const most = byRanges(coefficients, ranges);
        const least = byRanges(coefficients.map((number) => -number), ranges)?.opposite() ?? null;
        return { ...relation, single, most, least };
    });
}

/** Without the ends that the ranges of single variables give already. */
function onlyNews(relation) {
    const { single, low, high, least, most } = relation;
    if (single) return relation;
    const isNews = (end, implied) => end !== null && (implied === null || !end.equals(implied));
    const [isLow, isHigh] = [isNews(low, least), isNews(high, most)];
    if (isLow && isHigh) return relation;
    return { ...relation, low: isLow ? low : null, high: isHigh ? high : null };
}

/** A relation as a formula, such as `0 \u2264 x \u2264 10` or `x = y`; empty where nothing is bounded. */
export function formula({ text, coefficients, low, high }) {
    const terms = text.split(' ');
    const isDifference = terms.length === 3 && terms[1] === '-' && !text.includes('*') && !terms[0].startsWith('-');
    const isZero = (end) => end !== null && end.numerator === 0n;
    const [left, right] = isDifference ? [terms[0], terms[2]] : [withSigns(text), null];
    const row = withSigns(text);
    if (low === null && high === null) return '';
    if (low !== null && high !== null && low.equals(high)) return right && isZero(low) ? `${left} = ${right}` : `${row} = ${low}`;
    if (low === null) return right && isZero(high) ? `${left} \u2264 ${right}` : `${row} \u2264 ${high}`;
    if (high === null) return right && isZero(low) ? `${left} \u2265 ${right}` : `${row} \u2265 ${low}`;
    return coefficients.length ? `${low} \u2264 ${row} \u2264 ${high}` : '';
}

/** What the bounds of a point say in few words: ranges of variables, then what these don't imply. */
export function summary(pairs, point) {
    if (!point.reachable) return ['unreachable'];
    const found = relations(pairs, point.bounds);
    const ordered = [...found.filter((relation) => relation.single), ...found.filter((relation) => !relation.single)];
    return ordered.map((relation) => formula(onlyNews(relation))).filter((text) => text);
}

/** The verdicts that `verify` writes, such as `check 1 at 9:5: assert: open at x = 10, y = 11`: each with its state and a text of it. */
export function readVerdicts(text) {
    const found = text.matchAll(/^check (\d+) at (\d+):(\d+): (\w+): (?:proved|open(?: at (.*))?)$/gm);
    return [...found].map(([line, number, row, column, kind, stateText = '']) => {
        const parts = stateText.split(', ').filter((part) => part);
        const state = parts.map((part) => part.split(' = ')).map(([name, value]) => [name, Fraction.read(value)]);
        const proved = line.endsWith(': proved');
        const place = { number: Number(number), line: Number(row), column: Number(column) };
        const words = withSigns(stateText);
        return { ...place, kind, proved, state: new Map(state), stateText: words, text: proved ? 'proved' : `open${words && ` at ${words}`}` };
    });
}

/** Whose text a message refuses, at which line if it says one: `program`, `rows`, `certificate` or none. */
export function readMessage(message) {
    const found = /^(program|rows|certificate) refused: (.*?)(?: at line (\d+))?$/.exec(message.trim());
    if (!found) return { subject: null, cause: message.trim(), line: null };
    return { subject: found[1], cause: found[2], line: found[3] ? Number(found[3]) : null };
}
