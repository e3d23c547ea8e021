// Meets of half planes that were worked out by hand.
import { Fraction } from './fraction.js';
import { clip, FRAME, halfPlanes, meet, sights } from './polygon.js';

/** Half planes from `a b c`, for a*x + b*y <= c. */
const planesOf = (text) =>
    text
        .split(',')
        .filter((part) => part.trim())
        .map((part) => part.trim().split(/\s+/).map(BigInt))
        .map(([a, b, c]) => ({ a, b, c }));

const placeText = ({ x, y }) => `(${x}, ${y})`.replaceAll('\u2212', '-');

/** What is said of a meet: empty, or its corners, its sides, and whether it is open. */
function told(planes) {
    const { empty, open, corners, sides } = meet(planes);
    if (empty) return 'empty';
    const parts = [corners.map(placeText).join(' '), sides.join(' '), open ? 'open' : 'closed'];
    return parts.filter((part) => part).join(' | ');
}

/** What is told without the numbers of sides. */
const unnumbered = (text) => text.split(' | ').filter((part) => !/^[\d ]+$/.test(part)).join(' | ');

const OCTAGON = '1 0 3, -1 0 3, 0 1 3, 0 -1 3, 1 1 4, 1 -1 4, -1 1 4, -1 -1 4';

/** [name, half planes, corners in turn | sides | open or closed] */
const MEETS = [
    ['a triangle', '-1 0 0, 0 -1 0, 1 1 3', '(0, 0) (3, 0) (0, 3) | 0 1 2 | closed'],
    ['thirds', '-1 0 0, 0 -1 0, 3 1 13', '(0, 0) (13/3, 0) (0, 13) | 0 1 2 | closed'],
    ['a box', '1 0 10, -1 0 0, 0 1 7, 0 -1 -2', '(0, 2) (10, 2) (10, 7) (0, 7) | 0 1 2 3 | closed'],
    ['an octagon', OCTAGON, '(-3, -1) (-1, -3) (1, -3) (3, -1) (3, 1) (1, 3) (-1, 3) (-3, 1) | 0 1 2 3 4 5 6 7 | closed'],
    ['an octagon with a row more', `${OCTAGON}, 2 1 9`,
        '(-3, -1) (-1, -3) (1, -3) (3, -1) (3, 1) (1, 3) (-1, 3) (-3, 1) | 0 1 2 3 4 5 6 7 | closed'],
    ['an octagon that a row touches', `${OCTAGON}, 2 1 7`,
        '(-3, -1) (-1, -3) (1, -3) (3, -1) (3, 1) (1, 3) (-1, 3) (-3, 1) | 0 1 2 3 4 5 6 7 | closed'],
    ['the plane', '', 'open'],
    ['a half plane', '1 1 5', '0 | open'],
    ['a strip', '1 -1 2, -1 1 0', '0 1 | open'],
    ['a corner without end', '-1 0 0, 0 -1 0', '(0, 0) | 0 1 | open'],
    ['three sides of a box', '1 0 4, 0 1 1, 0 -1 1', '(4, -1) (4, 1) | 0 1 2 | open'],
    ['a point', '1 0 2, -1 0 -2, 0 1 5, 0 -1 -5', '(2, 5) | closed'],
    ['a point of three lines', '1 1 2, -1 0 -1, 0 -1 -1', '(1, 1) | closed'],
    ['a segment', '1 1 10, -1 -1 -10, -1 0 0, 0 -1 0', '(0, 10) (10, 0) | 0 1 | closed'],
    ['a ray', '1 -1 0, -1 1 0, -1 0 -2', '(2, 2) | 0 1 | open'],
    ['a line', '1 0 3, -1 0 -3', '0 1 | open'],
    ['nothing', '1 0 0, -1 0 -1', 'empty'],
    ['nothing of three', '1 1 0, -1 0 -1, 0 -1 0', 'empty'],
    ['a false row', '0 0 -1', 'empty'],
    ['a true row', '0 0 0, 1 0 1', '1 | open'],
    ['large numbers', '1 0 9223372036854775807, -1 0 9223372036854775807, 0 1 1, 0 -1 0',
        '(-9223372036854775807, 0) (9223372036854775807, 0) (9223372036854775807, 1) (-9223372036854775807, 1) | 0 1 2 3 | closed'],
];

/** [name, rows `a b c .. <= bound`, places of the two, closed, half planes in any order] */
const SHADOWS = [
    ['a sum behind a third', '1 0 1 <= 4; 0 1 -1 <= 1; 0 0 -1 <= 0; -1 0 0 <= 0', [0, 1], false, '-1 0 0, 1 0 4, 1 1 5'],
    ['a bound of halves', '2 0 <= 7; 0 1 <= 1/2', [0, 1], false, '2 0 7, 0 2 1'],
    ['rows of others fall away', '1 0 0 <= 1; 1 0 1 <= 5', [0, 1], true, '1 0 1'],
    ['a row without bound says nothing', '1 0 <= +inf; -1 0 <= 0', [0, 1], false, '-1 0 0'],
    ['a contradiction', '0 0 1 <= 0; 0 0 -1 <= -1; -1 0 0 <= 0', [0, 1], false, '0 0 -1'],
    ['exchanged', '1 2 <= 3', [1, 0], false, '2 1 3'],
];

function rowsOf(text) {
    return text.split(';').map((part) => {
        const [row, bound] = part.split('<=').map((word) => word.trim());
        return { coefficients: row.split(/\s+/).map(BigInt), bound: Fraction.read(bound) };
    });
}

const planeText = ({ a, b, c }) => `${a} ${b} ${c}`;

/** The faults of the table: none where all is as it was worked out. */
export function faults() {
    const found = [];
    const expect = (name, got, wanted) => {
        if (got !== wanted) found.push(`${name}: ${got}, and not ${wanted}`);
    };
    for (const [name, text, wanted] of MEETS) {
        expect(name, told(planesOf(text)), wanted);
        expect(`${name}, backwards`, unnumbered(told(planesOf(text).reverse())), unnumbered(wanted));
    }
    for (const [name, text, [x, y], closed, wanted] of SHADOWS) {
        const { planes, exact } = halfPlanes(rowsOf(text), x, y, closed);
        expect(name, planes.map(planeText).sort().join(', '), wanted.split(', ').sort().join(', '));
        expect(`${name}, exactly`, String(exact), 'true');
    }
    const frame = { left: new Fraction(-1n), right: new Fraction(9n), bottom: new Fraction(-1n), top: new Fraction(9n) };
    const seen = clip(planesOf('-1 0 0, 0 -1 0'), frame).map((place) => placeText(place) + (place.side === FRAME ? '!' : ''));
    expect('what a frame cuts off', seen.join(' '), '(9, 0)! (9, 9)! (0, 9) (0, 0)');
    expect('the sights of a strip', sights(planesOf('1 -1 2, -1 1 0')).map(placeText).join(' '), '(1, -1) (0, 0)');
    return found;
}
