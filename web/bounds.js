// The table of the bounds of a point, and its note in few words.
import { at, element } from './parts.js';
import { relations, summary, withSigns } from './report.js';

const MOST_NOTES = 6;

/** The text of a point's note: what its bounds say, where that is much the first of it. */
export function noteText(pairs, point) {
    const found = summary(pairs, point);
    const more = found.length > MOST_NOTES ? ` \u00b7 and ${found.length - MOST_NOTES} more` : '';
    return (found.slice(0, MOST_NOTES).join('\u2002\u00b7\u2002') || 'no bounds') + more;
}

function cell(row, classes, content, sign, isBehind) {
    const made = element('td', classes);
    if (sign && isBehind) made.append(element('span', 'sign', sign));
    made.append(content);
    if (sign && !isBehind) made.append(element('span', 'sign', sign));
    row.append(made);
}

/** A row of the table: those that the ranges give already are softer. */
function boundRow({ text, low, high, isNews }) {
    const isExact = low !== null && high !== null && low.equals(high);
    const row = element('tr', isExact && isNews ? 'exact' : isNews ? '' : 'implied');
    const hasLow = low !== null && !isExact;
    cell(row, 'low', hasLow ? String(low) : '', hasLow ? '\u2264' : '');
    cell(row, 'row', withSigns(text));
    const sign = isExact ? '=' : high === null ? '' : '\u2264';
    cell(row, 'high', high === null ? (low === null ? 'no bound' : '') : String(high), sign, true);
    return row;
}

/** Fills the table with the bounds of a point: those that the ranges give already stand behind the others. */
export function showBounds(pairs, point) {
    const body = at('bound-table').tBodies[0];
    if (!point.reachable) {
        const row = element('tr');
        cell(row, 'whole', 'No run comes here, not even over fractions.');
        body.replaceChildren(row);
        return;
    }
    const says = (end, implied) => end !== null && !(implied && end.equals(implied));
    const rows = relations(pairs, point.bounds).map((relation) => {
        const { single, low, high, least, most } = relation;
        return { ...relation, isNews: single ? low !== null || high !== null : says(high, most) || says(low, least) };
    });
    body.replaceChildren(...[...rows.filter((row) => row.isNews), ...rows.filter((row) => !row.isNews)].map(boundRow));
}
