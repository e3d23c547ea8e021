// A picture of the polygon that bounds leave for two variables: to scale, with axes, ticks, exact corners, and sides that fade where they go
// on without end. Everything is exact up to the place of a pixel.
import { Fraction, ZERO, greater } from './fraction.js';
import { FRAME, clip, frameAround, halfPlanes, meet, sights, widened } from './polygon.js';

const SPACE = 'http://www.w3.org/2000/svg';

function draw(tag, attributes, text) {
    const made = document.createElementNS(SPACE, tag);
    for (const [name, value] of Object.entries(attributes)) made.setAttribute(name, value);
    if (text !== undefined) made.textContent = text;
    return made;
}

/** The half planes of a point for the variables at two places; with -1 for the second one, those of a line along the first. */
export function planesOf(report, point, across, up, closed) {
    const rows = report.rows.map((row, at) => ({ coefficients: row.coefficients, bound: point.bounds[at] }));
    if (up >= 0) return halfPlanes(rows, across, up, closed);
    const alone = rows.map(({ coefficients, bound }) => ({ coefficients: [...coefficients, 0n], bound }));
    const { planes, exact } = halfPlanes(alone, across, alone[0].coefficients.length - 1, closed);
    return { planes: [...planes, { a: 0n, b: 1n, c: 0n }, { a: 0n, b: -1n, c: 0n }], exact };
}

/** A frame around all that the pictures of these points have to show, so that they have one scale. */
export function frameOf(allPlanes, marks = []) {
    const seen = [...allPlanes.flatMap(sights), ...marks];
    // One place alone is seen from the origin.
    const isOne = seen.every(({ x, y }) => x.equals(seen[0].x) && y.equals(seen[0].y));
    const around = frameAround(isOne ? [...seen, { x: ZERO, y: ZERO }] : seen);
    const width = around.right.minus(around.left);
    const height = around.top.minus(around.bottom);
    const least = new Fraction(4n);
    const side = greater(greater(width, height), least);
    const goesOn = allPlanes.map(meet).some(({ open, corners }) => open && corners.length > 0);
    // Flat ranges get a part of the other one's size, so that a segment is seen as one; so do sides without end, to be seen as such.
    const isFlat = (size) => size.times(new Fraction(8n)).compare(side) < 0;
    const ample = (size) => (goesOn || isFlat(size) ? side.over(new Fraction(5n)) : size.over(new Fraction(6n)));
    return widened(around, ample(width), ample(height));
}

/** Steps for ticks: 1, 2 or 5 times a power of ten, and so many at most. */
function stepFor(length, most) {
    const raw = length / most;
    const power = 10 ** Math.floor(Math.log10(raw));
    const step = [1, 2, 5, 10].map((factor) => factor * power).find((size) => size >= raw);
    return Math.max(step, length < 3 ? step : 1);
}

function tickText(value) {
    const size = Math.abs(value);
    const text = size >= 1e7 ? value.toExponential(1).replace('e+', '·10^') : Number(value.toPrecision(12)).toLocaleString('en-US');
    return text.replace('-', '\u2212').replaceAll(',', '\u202f');
}

/** The map from exact places to pixels: the same for both axes where their ranges are of one size. */
class Scale {
    constructor(frame, width, flat) {
        const [left, right] = [frame.left.toNumber(), frame.right.toNumber()];
        const [bottom, top] = [frame.bottom.toNumber(), frame.top.toNumber()];
        const inner = width - 58 - 16;
        this.same = !flat && right - left < 7 * (top - bottom) && top - bottom < 7 * (right - left);
        const tall = flat ? 90 : this.same ? ((top - bottom) / (right - left)) * inner : inner * 0.72;
        const height = Math.min(Math.max(tall, flat ? 90 : inner * 0.45), inner * 0.74, 620);
        Object.assign(this, { left: 58, top: 14, width: inner, height });
        let [unitX, unitY] = [inner / (right - left), height / (top - bottom)];
        if (this.same) unitX = unitY = Math.min(unitX, unitY);
        Object.assign(this, { unitX, unitY });
        // The ranges that are seen: those of the frame, and what is left of the room on both sides.
        const [spareX, spareY] = [(inner / unitX - (right - left)) / 2, (height / unitY - (top - bottom)) / 2];
        Object.assign(this, { fromX: left - spareX, toX: right + spareX, fromY: bottom - spareY, toY: top + spareY });
    }

    x(value) {
        return this.left + (value - this.fromX) * this.unitX;
    }

    y(value) {
        return this.top + this.height - (value - this.fromY) * this.unitY;
    }

    /** The whole of what is seen as an exact frame, a little larger. */
    frame() {
        const exact = (value) => new Fraction(BigInt(Math.round(value * 4096)), 4096n);
        const { fromX, toX, fromY, toY } = this;
        const [more, higher] = [(toX - fromX) / 50, (toY - fromY) / 50];
        return { left: exact(fromX - more), right: exact(toX + more), bottom: exact(fromY - higher), top: exact(toY + higher) };
    }
}

function axes(scale, names, flat) {
    const group = draw('g', {});
    const floor = scale.top + scale.height;
    const put = (text, x, y, anchor, classes) => group.append(draw('text', { x, y, 'text-anchor': anchor, class: classes }, text));
    const stepX = stepFor(scale.toX - scale.fromX, Math.max(3, Math.min(10, scale.width / 62)));
    for (let at = Math.ceil(scale.fromX / stepX); at * stepX <= scale.toX; at += 1) {
        const x = scale.x(at * stepX);
        group.append(draw('line', { x1: x, x2: x, y1: scale.top, y2: floor, class: at === 0 ? 'axis' : 'grid' }));
        put(tickText(at * stepX), x, floor + 17, 'middle', 'tick');
    }
    const stepY = scale.same ? stepX : stepFor(scale.toY - scale.fromY, Math.max(3, Math.min(9, scale.height / 44)));
    for (let at = Math.ceil(scale.fromY / stepY); !flat && at * stepY <= scale.toY; at += 1) {
        const y = scale.y(at * stepY);
        group.append(draw('line', { x1: scale.left, x2: scale.left + scale.width, y1: y, y2: y, class: at === 0 ? 'axis' : 'grid' }));
        // Above there is the axis's name.
        if (y > scale.top + 9) put(tickText(at * stepY), scale.left - 8, y + 4, 'end', 'tick');
    }
    put(names[0], scale.left + scale.width, floor + 34, 'end', 'axis-name');
    const isLong = names[1]?.length * 8 > scale.left - 8;
    if (!flat) put(names[1], isLong ? 0 : scale.left - 8, scale.top - 2, isLong ? 'start' : 'end', 'axis-name');
    return group;
}

/** A mask that lets everything fade out towards the ends of the picture. */
function fading(scale) {
    const [x, y, width, height] = [scale.left, scale.top, scale.width, scale.height];
    const [broad, high] = [Math.min(44, width / 8), Math.min(44, height / 8)];
    const group = draw('g', {});
    const stops = (id, x2, y2) => {
        const made = draw('linearGradient', { id, x1: 0, y1: 0, x2, y2 });
        made.append(draw('stop', { offset: 0, 'stop-color': '#000' }), draw('stop', { offset: 1, 'stop-color': '#000', 'stop-opacity': 0 }));
        return made;
    };
    group.append(stops('fade-left', 1, 0), stops('fade-top', 0, 1));
    const mask = draw('mask', { id: 'fade', maskUnits: 'userSpaceOnUse', x, y, width, height });
    const turned = (angle, cx, cy) => ({ transform: `rotate(${angle} ${cx} ${cy})` });
    mask.append(
        draw('rect', { x, y, width, height, fill: '#fff' }),
        draw('rect', { x, y, width: broad, height, fill: 'url(#fade-left)' }),
        draw('rect', { x, y, width: broad, height, fill: 'url(#fade-left)', ...turned(180, x + width / 2, y + height / 2) }),
        draw('rect', { x, y, width, height: high, fill: 'url(#fade-top)' }),
        draw('rect', { x, y, width, height: high, fill: 'url(#fade-top)', ...turned(180, x + width / 2, y + height / 2) }),
    );
    group.append(mask);
    return group;
}

/** Dots at the whole states within, where they are far enough from one another. */
function wholeStates(planes, scale, flat) {
    const group = draw('g', {});
    if (Math.min(scale.unitX, flat ? 99 : scale.unitY) < 11) return group;
    const isIn = (x, y) => planes.every(({ a, b, c }) => a * x + b * y <= c);
    const radius = Math.min(2.4, Math.min(scale.unitX, scale.unitY) / 9);
    for (let x = Math.ceil(scale.fromX); x <= scale.toX; x += 1) {
        for (let y = flat ? 0 : Math.ceil(scale.fromY); y <= (flat ? 0 : scale.toY); y += 1) {
            if (isIn(BigInt(x), BigInt(y))) group.append(draw('circle', { cx: scale.x(x), cy: scale.y(y), r: radius, class: 'dot' }));
        }
    }
    return group;
}

export const placeName = ({ x, y }, flat) => (flat ? `${x}` : `(${x}, ${y})`);

/** Boxes for a name beside a place: first away from the middle, then turned further and further from there. */
function boxesBeside({ x, y }, [away, down], width, scale, flat) {
    const start = Math.atan2(down, away);
    const turns = flat ? [0] : [0, 0.6, -0.6, 1.2, -1.2, 1.9, -1.9, 2.6, -2.6];
    return turns.map((turn) => {
        const [right, low] = flat ? [0, -1] : [Math.cos(start + turn), Math.sin(start + turn)];
        const left = right > 0.35 ? x + 9 : right < -0.35 ? x - 9 - width : x - width / 2;
        const level = y + low * (Math.abs(right) > 0.35 ? 10 : 16);
        return {
            x: Math.min(Math.max(left, scale.left + 4), scale.left + scale.width - width - 4),
            y: Math.min(Math.max(level - 7, scale.top), scale.top + scale.height - 14),
            width,
            height: 14,
        };
    });
}

const overlap = (one, other) =>
    one.x < other.x + other.width && other.x < one.x + one.width && one.y < other.y + other.height && other.y < one.y + one.height;

/** Corners, and a state as a cross, with their names beside them, away from the middle, where there is a place for them. */
function namedPlaces(corners, mark, scale, flat) {
    const group = draw('g', {});
    const isCorner = mark && corners.some((corner) => corner.x.equals(mark.x) && corner.y.equals(mark.y));
    const places = mark && !isCorner ? [mark, ...corners] : corners;
    const pixels = places.map((place) => ({ x: scale.x(place.x.toNumber()), y: scale.y(place.y.toNumber()) }));
    const taken = pixels.map(({ x, y }) => ({ x: x - 5, y: y - 5, width: 10, height: 10 }));
    const middle = (axis) => pixels.reduce((sum, place) => sum + place[axis], 0) / pixels.length;
    places.forEach((place, at) => {
        const { x, y } = pixels[at];
        const isMark = mark && place.x.equals(mark.x) && place.y.equals(mark.y);
        const text = placeName(place, flat);
        const away = places.length === 1 ? [1, -1] : [x - middle('x'), y - middle('y')];
        if (place !== mark) group.append(draw('circle', { cx: x, cy: y, r: 3.6, class: 'corner' }));
        const box = boxesBeside(pixels[at], away, text.length * 6.8, scale, flat).find((one) => !taken.some((other) => overlap(one, other)));
        if (!box) return;
        taken.push(box);
        group.append(draw('text', { x: box.x, y: box.y + 11, class: isMark ? 'state-name' : 'corner-name' }, text));
    });
    if (mark) {
        const [x, y] = [scale.x(mark.x.toNumber()), scale.y(mark.y.toNumber())];
        group.append(draw('path', { d: `M${x - 5} ${y - 5}l10 10m0 -10l-10 10`, class: 'state-mark' }));
    }
    return group;
}

/** What a meet is, in words. */
export function inWords({ empty, open, corners }, flat) {
    const count = corners.length;
    const ends = count === 1 ? 'one corner' : `${count} corners`;
    if (empty) return 'Nothing';
    if (open) return count ? `Unbounded, with ${ends}` : 'Unbounded, with no corner';
    if (count === 1) return flat ? 'One value' : 'A point';
    if (count === 2) return flat ? 'A range' : 'A segment';
    return `A polygon with ${ends}`;
}

/**
 * Draws the half planes into `root`. `frame` is the one of all points, `names` those of the axes, `mark` a state that is shown. With `flat`
 * there is one axis alone.
 */
export function drawPicture(root, { planes, frame, names, mark, flat, label, width }) {
    const scale = new Scale(frame, width, flat);
    const height = scale.top + scale.height + 40;
    const picture = draw('svg', { viewBox: `0 0 ${width} ${height}`, role: 'img', 'aria-label': label });
    const polygon = planes ? clip(planes, scale.frame()) : [];
    const at = ({ x, y }) => [scale.x(x.toNumber()), scale.y(y.toNumber())];
    picture.append(fading(scale), axes(scale, names, flat));
    const drawn = draw('g', { mask: 'url(#fade)' });
    if (polygon.length > 2) drawn.append(draw('polygon', { points: polygon.map((place) => at(place).join()).join(' '), class: 'area' }));
    if (polygon.length) drawn.append(wholeStates(planes, scale, flat));
    polygon.forEach((from, place) => {
        const to = polygon[(place + 1) % polygon.length];
        if (from.side === FRAME || from === to) return;
        const [[x1, y1], [x2, y2]] = [at(from), at(to)];
        drawn.append(draw('line', { x1, y1, x2, y2, class: 'side' }));
    });
    picture.append(drawn);
    picture.append(namedPlaces(planes ? meet(planes).corners : [], mark ?? null, scale, flat));
    if (!polygon.length) {
        const text = planes ? 'No state fits these bounds' : 'No run comes here';
        const middle = { x: scale.left + scale.width / 2, y: scale.top + scale.height / 2 };
        picture.append(draw('text', { ...middle, 'text-anchor': 'middle', class: 'nothing' }, text));
    }
    root.replaceChildren(picture);
    return scale;
}
