// Which point stands before a check, by the text alone: programs whose points were numbered by hand.
import { pointBefore } from './checks.js';

/** A point from `kind line`. */
function pointOf(text, number) {
    const [kind, line] = text.trim().split(' ');
    return { number, kind, line: line ? Number(line) : null };
}

/** [name, text with the check at `@`, points in turn, the number of the one before the check] */
const BEFORE = [
    ['no point between', 'int main() {\nint x = 0;\n@}', 'entry, exit', 0],
    ['within a loop', 'int main() {\nwhile (x < 3) {\nx++;\n@}\n}', 'entry, loop 2, exit', 1],
    ['on the line of a loop', 'int main() {\nwhile (x < 3) { @}\n}', 'entry, loop 2, exit', 1],
    ['behind a loop', 'int main() {\nwhile (x < 3) {\nx++;\n}\n@}', 'entry, loop 2, exit', 1],
    ['behind a loop within a loop', 'int main() {\nwhile (x < 3) {\nwhile (y < x) {\ny++;\n}\nx++;\n}\n@}', 'entry, loop 2, loop 3, exit', 1],
    ['behind the inner loop', 'int main() {\nwhile (x < 3) {\nwhile (y < x) {\ny++;\n}\n@x++;\n}\n}', 'entry, loop 2, loop 3, exit', 2],
    ['before every loop', 'int main() {\n@while (x < 3) {\nx++;\n}\n}', 'entry, loop 2, exit', 0],
    ['within a branch', 'int main() {\nif (x < 3) {\n@} else {\nx = 1;\n}\n}', 'entry, join 2, exit', 0],
    ['within the other branch', 'int main() {\nif (x < 3) {\nx = 1;\n} else {\n@}\n}', 'entry, join 2, exit', 0],
    ['behind both branches', 'int main() {\nif (x < 3) {\nx = 1;\n} else {\nx = 2;\n}\n@}', 'entry, join 2, exit', 1],
    ['a loop in the branch before', 'int main() {\nif (x < 3) {\nwhile (x < 5) {\nx++;\n}\n} else {\n@}\n}', 'entry, loop 3, join 2, exit', 0],
    ['behind a label', 'int main() {\nmiddle: x = 1;\n@}', 'entry, label 2, exit', 1],
    ['a brace in a comment', 'int main() {\nwhile (x < 3) { // }\n@}\n}', 'entry, loop 2, exit', 1],
];

/** The faults of the table: none where all is as it was worked out. */
export function faults() {
    return BEFORE.flatMap(([name, text, points, wanted]) => {
        const lines = text.slice(0, text.indexOf('@')).split('\n');
        const check = { line: lines.length, column: lines.at(-1).length + 1 };
        const got = pointBefore(points.split(',').map(pointOf), check, text.replace('@', 'assert(x < 3);')).number;
        return got === wanted ? [] : [`${name}: ${got}, and not ${wanted}`];
    });
}
