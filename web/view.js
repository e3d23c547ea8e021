// The picture of a point with the variables that it is drawn for.
import { ZERO } from './fraction.js';
import { at, element } from './parts.js';
import { drawPicture, frameOf, inWords, placeName, planesOf } from './picture.js';
import { meet } from './polygon.js';
import { pointName, relations } from './report.js';
import { now } from './state.js';

/** The variables of the picture to choose from: those that were chosen before stay, where they are there. */
export function showVariables() {
    const { variables } = now.report;
    const fill = (select, names) => select.replaceChildren(...names.map((name) => element('option', '', name)));
    fill(at('across'), variables);
    fill(at('up'), variables);
    const [first, second] = related();
    if (!variables.includes(now.across)) now.across = variables[first];
    if (!variables.includes(now.up) || now.up === now.across) now.up = variables[second] ?? null;
    if (now.up === now.across) now.up = variables.find((name) => name !== now.across) ?? null;
    at('across').value = now.across;
    at('up').value = now.up;
    const isFlat = variables.length < 2;
    at('up').parentElement.hidden = isFlat;
    at('exchange').hidden = isFlat;
}

/** The first two variables that a bound ties together at the point that is chosen, else the first two. */
function related() {
    const point = now.report.points[now.point];
    const tied = relations(now.pairs, point.bounds).find(
        ({ single, low, high, least, most }) =>
            !single && ((high !== null && !(most && high.equals(most))) || (low !== null && !(least && low.equals(least)))),
    );
    const places = tied ? tied.coefficients.flatMap((number, place) => (number === 0n ? [] : [place])) : [];
    return places.length >= 2 ? places : [0, 1];
}

/** Draws the picture of the point that is chosen, and says what it shows. */
export function showPicture() {
    const { report } = now;
    if (!report || now.across === null || !at('view').offsetWidth) return;
    const point = report.points[now.point];
    const [across, up] = [now.across, now.up].map((name) => report.variables.indexOf(name));
    const flat = up < 0;
    const planesAt = (one) => planesOf(report, one, across, up, now.closed);
    const all = new Map(report.points.filter((one) => one.reachable).map((one) => [one.number, planesAt(one)]));
    const here = all.get(point.number) ?? null;
    const state = now.mark?.state;
    const hasPlace = state?.has(now.across) && (flat || state.has(now.up));
    const place = hasPlace ? { x: state.get(now.across), y: flat ? ZERO : state.get(now.up) } : null;
    const found = here ? meet(here.planes) : { empty: true, open: false, corners: [] };
    const words = here ? inWords(found, flat) : 'No run comes here';
    const names = found.corners.map((corner) => placeName(corner, flat));
    drawPicture(at('picture'), {
        planes: here?.planes ?? null,
        frame: frameOf([...all.values()].map(({ planes }) => planes), place ? [place] : []),
        names: [now.across, now.up],
        mark: place,
        flat,
        label: `${pointName(point)}, ${now.across} across${flat ? '' : `, ${now.up} up`}. ${words}${names.length ? `: ${names.join(', ')}` : ''}`,
        width: Math.min(at('picture').clientWidth, 900),
    });
    const line = at('corners');
    line.replaceChildren(words, names.length ? ': ' : '.');
    names.forEach((name, nth) => line.append(element('b', '', name), nth === names.length - 1 ? '.' : ', '));
    if (here && !here.exact) line.append(' Rows over other variables are left out here.');
    if (place) line.append(element('span', 'open', ` The cross is the state at the check in line ${now.mark.line}: ${placeName(place, flat)}.`));
}

/** Draws anew where a variable is chosen, or where there is another width. */
export function connectView() {
    for (const [select, other] of [['across', 'up'], ['up', 'across']]) {
        at(select).addEventListener('change', () => {
            if (at(select).value === now[other]) now[other] = now[select];
            now[select] = at(select).value;
            at(other).value = now[other];
            showPicture();
        });
    }
    at('exchange').addEventListener('click', () => {
        [now.across, now.up] = [now.up, now.across];
        [at('across').value, at('up').value] = [now.across, now.up];
        showPicture();
    });
    new ResizeObserver(showPicture).observe(at('picture'));
}
