// Polygons as exact meets of half planes, and the half planes that bounds over many variables leave for two of them.
//
// A half plane {a, b, c} has whole numbers and means a*x + b*y <= c.
import { Fraction, ONE, ZERO, greater, lesser } from './fraction.js';

/** Beyond so many rows, an elimination gives up. */
const MOST_ROWS = 4000;

const sizeOf = (number) => (number < 0n ? -number : number);

function divisorOf(numbers) {
    let divisor = 0n;
    for (let number of numbers) {
        number = sizeOf(number);
        while (number !== 0n) [divisor, number] = [number, divisor % number];
    }
    return divisor;
}

// ---- from rows over all variables to half planes

/** A bounded row as whole numbers: coefficients, and behind them the number that their sum is at most. */
function wholeRow({ coefficients, bound }) {
    return [...coefficients.map((number) => number * bound.denominator), bound.numerator];
}

/** Of rows with the same direction the strongest, once. */
function strongest(rows) {
    const kept = new Map();
    for (const row of rows) {
        const divisor = divisorOf(row.slice(0, -1));
        if (divisor === 0n) {
            if (row.at(-1) < 0n) return [row];
            continue;
        }
        const direction = row.slice(0, -1).map((number) => number / divisor);
        const bound = new Fraction(row.at(-1), divisor);
        const key = direction.join();
        const other = kept.get(key);
        if (!other || bound.compare(other.bound) < 0) kept.set(key, { direction, bound });
    }
    return [...kept.values()].map(({ direction, bound }) => wholeRow({ coefficients: direction, bound }));
}

/** The rows without the variable at this place, by Fourier and Motzkin; `null` where they are too many. */
function without(rows, place) {
    const [above, below, rest] = [[], [], []];
    for (const row of rows) (row[place] > 0n ? above : row[place] < 0n ? below : rest).push(row);
    if (above.length * below.length + rest.length > MOST_ROWS) return null;
    for (const one of above) {
        for (const other of below) {
            rest.push(one.map((number, at) => number * -other[place] + other[at] * one[place]));
        }
    }
    return strongest(rest);
}

/**
 * The half planes of the variables at the places x and y: what all rows together leave for the two.
 *
 * `rows` have `coefficients` (whole numbers) and a `bound` (a fraction, or null where there is none). Where rows are `closed`, those over
 * the two variables alone say as much as all together. `exact` is false where elimination gave up, and then these rows are what is left.
 */
export function halfPlanes(rows, x, y, closed) {
    const bounded = rows.filter((row) => row.bound !== null);
    const isOver = (row) => row.coefficients.every((number, at) => number === 0n || at === x || at === y);
    const own = bounded.filter(isOver).map(wholeRow);
    let found = closed ? own : bounded.map(wholeRow);
    let exact = true;
    const count = rows.length ? rows[0].coefficients.length : 0;
    const waiting = closed ? [] : Array.from({ length: count }, (_, at) => at).filter((at) => at !== x && at !== y);
    found = strongest(found);
    while (found && waiting.length) {
        const pairs = (at) => found.filter((row) => row[at] > 0n).length * found.filter((row) => row[at] < 0n).length;
        waiting.sort((one, other) => pairs(one) - pairs(other));
        found = without(found, waiting.shift());
    }
    if (!found) {
        exact = false;
        found = strongest(own);
    }
    return { planes: found.map((row) => ({ a: row[x], b: row[y], c: row.at(-1) })), exact };
}

// ---- meets of half planes

/** How far a place is outside: above 0 where it isn't in the half plane. */
function excess({ a, b, c }, { x, y }) {
    return new Fraction(a).times(x).plus(new Fraction(b).times(y)).minus(new Fraction(c));
}

const isSame = (one, other) => one.x.equals(other.x) && one.y.equals(other.y);

/** Where the way from one place to another one, of these excesses, meets the line. */
function crossing(from, to, out, into) {
    const share = out.over(out.minus(into));
    return {
        x: from.x.plus(to.x.minus(from.x).times(share)),
        y: from.y.plus(to.y.minus(from.y).times(share)),
    };
}

/** Cuts a convex polygon by the half plane with this number. Each corner says in `side` which line leads on from it. */
function cut(polygon, plane, number) {
    const made = [];
    polygon.forEach((from, at) => {
        const to = polygon[(at + 1) % polygon.length];
        const [out, into] = [excess(plane, from), excess(plane, to)];
        const [isIn, goesIn] = [out.numerator <= 0n, into.numerator <= 0n];
        if (isIn) made.push(from);
        if (isIn && !goesIn) made.push({ ...crossing(from, to, out, into), side: number });
        if (!isIn && goesIn) made.push({ ...crossing(from, to, out, into), side: from.side });
    });
    const apart = made.filter((corner, at) => made.length === 1 || !isSame(corner, made[(at + 1) % made.length]));
    return apart.length || !made.length ? apart : [made[0]];
}

/** The side of a polygon that is no line of a half plane, but where the frame cuts it off. */
export const FRAME = -1;

/**
 * What the half planes leave of a frame {left, right, bottom, top}: the corners in turn against the clock, each with the `side` that leads on
 * to the next, the number of a half plane or `FRAME`. No corners: nothing; one: a point; two: a segment.
 */
export function clip(planes, { left, right, bottom, top }) {
    let polygon = [
        { x: left, y: bottom, side: FRAME },
        { x: right, y: bottom, side: FRAME },
        { x: right, y: top, side: FRAME },
        { x: left, y: top, side: FRAME },
    ];
    planes.forEach((plane, number) => {
        if (plane.a === 0n && plane.b === 0n) {
            if (plane.c < 0n) polygon = [];
        } else if (polygon.length) {
            polygon = cut(polygon, plane, number);
        }
    });
    return polygon;
}

/** Where the lines of two half planes meet; `null` where they are parallel. */
function meetingOf(one, other) {
    const turn = one.a * other.b - one.b * other.a;
    if (turn === 0n) return null;
    return {
        x: new Fraction(one.c * other.b - one.b * other.c, turn),
        y: new Fraction(one.a * other.c - one.c * other.a, turn),
    };
}

/** The place of a line that is nearest to 0. */
function foot({ a, b, c }) {
    const square = a * a + b * b;
    return { x: new Fraction(a * c, square), y: new Fraction(b * c, square) };
}

/** The least frame around places, or `null` around none. */
export function frameAround(places) {
    if (!places.length) return null;
    const [xs, ys] = [places.map((place) => place.x), places.map((place) => place.y)];
    return { left: xs.reduce(lesser), right: xs.reduce(greater), bottom: ys.reduce(lesser), top: ys.reduce(greater) };
}

/** A frame that is larger on each side by so much. */
export function widened({ left, right, bottom, top }, width, height) {
    return { left: left.minus(width), right: right.plus(width), bottom: bottom.minus(height), top: top.plus(height) };
}

/** Some places of each line: where it meets the others, and its foot. Each corner of a meet is among them. */
function placesOf(planes) {
    const lines = planes.filter((plane) => plane.a !== 0n || plane.b !== 0n);
    const places = lines.map(foot);
    lines.forEach((one, at) => {
        for (const other of lines.slice(at + 1)) {
            const place = meetingOf(one, other);
            if (place) places.push(place);
        }
    });
    return places;
}

/** Corners in turn, beginning with the lowest of those at the left. */
function fromLeft(corners) {
    let first = 0;
    corners.forEach(({ x, y }, at) => {
        if ((x.compare(corners[first].x) || y.compare(corners[first].y)) < 0) first = at;
    });
    return [...corners.slice(first), ...corners.slice(0, first)];
}

/**
 * The meet of half planes: its `corners` in turn against the clock from the lowest one at the left, the numbers of the half planes that give
 * it a side (`sides`), whether it is `empty`, and whether it goes on without end (`open`).
 */
export function meet(planes) {
    const frame = widened(frameAround([{ x: ZERO, y: ZERO }, ...placesOf(planes)]), ONE, ONE);
    const isOnFrame = ({ x, y }) => x.equals(frame.left) || x.equals(frame.right) || y.equals(frame.bottom) || y.equals(frame.top);
    const polygon = clip(planes, frame);
    const sides = polygon.length > 1 ? polygon.map((corner) => corner.side).filter((side) => side !== FRAME) : [];
    return {
        empty: !polygon.length,
        open: polygon.some(isOnFrame),
        corners: fromLeft(polygon.filter((place) => !isOnFrame(place)).map(({ x, y }) => ({ x, y }))),
        sides: [...new Set(sides)].sort((one, other) => one - other),
    };
}

/** The places that a picture of a meet has to show: its corners, or of one without corners the feet of its sides. */
export function sights(planes) {
    const { empty, corners, sides } = meet(planes);
    if (empty) return [];
    return corners.length ? corners : sides.map((side) => foot(planes[side]));
}
