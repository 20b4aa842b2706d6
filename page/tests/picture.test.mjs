// The drawing: it ends where the library says, and agrees crossing by crossing with the command's stored pictures.
import assert from 'node:assert/strict';
import { readFileSync } from 'node:fs';
import { test } from 'node:test';
import { fittedColumn, spacing, visibleSteps } from '../src/picture.mjs';
import { DASHES, colourOf, dashOf, measuresOf, partOf, pictureMarkup, strandOf, strandsMarkup, viewMarkup } from '../src/strands.mjs';
import { RIGS, dice, library, randomWord, root } from './library.mjs';

/** The command's pictures are those of this repository, or of another copy of it. */
const pictures = process.env.WINNATHEY_PICTURES ?? root;
const MEASURES = { lane: 20, column: 30, fold: 40, width: 100000 };

/** What paths show: where each crossing takes hold of a strand and where it lets go, whether the strand is mirrored there, and the ends. */
function arcsOf(paths) {
    const [before, after, ends] = [[], [], []];
    for (const { d, mirrored } of paths) {
        let [x, y] = [0, 0];
        for (const [, command, numbers] of d.matchAll(/([MHQ])([^MHQ]*)/g)) {
            const list = numbers.trim().split(/[ ,]+/).map(Number);
            const [nextX, nextY] = command === 'H' ? [list[0], y] : list.slice(-2);
            // The first arc of a crossing bends at the height it comes from, the second at the height it goes to; between the
            // two there may be a gap, where the strand passes under the other.
            if (command === 'Q' && list[1] === y) before.push({ x, y, mirrored });
            else if (command === 'Q') after.push({ x: nextX, y: nextY, mirrored });
            [x, y] = [nextX, nextY];
        }
        ends.push({ x, y, mirrored });
    }
    return { before, after, ends };
}

/** The same with columns and lanes counted from 0, in order. */
function counted(arcs, y) {
    const list = part => {
        const columns = [...new Set(part.map(arc => arc.x))].sort((a, b) => a - b);
        return part.map(arc => `${columns.indexOf(arc.x)} lane ${y(arc.y)}${arc.mirrored ? ' mirrored' : ''}`).sort();
    };
    const edge = Math.max(...arcs.ends.map(end => end.x));
    const ends = arcs.ends.filter(end => end.x === edge).map(end => `lane ${y(end.y)}${end.mirrored ? ' mirrored' : ''}`).sort();
    return { before: list(arcs.before), after: list(arcs.after), ends };
}

function ours(kind, rank, word) {
    const part = partOf(library, { kind, rank, word });
    const m = measuresOf(part, MEASURES);
    const markup = strandsMarkup(part, m).replace(/<g data-strand="\d+" class="over">.*?<\/g>/g, '');
    const paths = [...markup.matchAll(/<path class="(line|outer) [^"]*"[^>]* d="([^"]*)"/g)].map(([, kindOf, d]) => ({ d, mirrored: kindOf === 'outer' }));
    return { ...counted(arcsOf(paths), y => y / MEASURES.lane - 0.5), dots: (markup.match(/<circle/g) ?? []).length };
}

/** The drawings of a picture of the command: rig, word, arcs, dots, and the numbers at the right end. */
function commandsDrawings(text) {
    const heads = [...text.matchAll(/>([ABD])(\d+), [a-z ]+, \d+ letters?: ([\d ]+)</g)];
    return heads.map((head, at) => {
        const body = text.slice(head.index, heads[at + 1]?.index);
        // A mirrored stretch is a broad line with a white one along its middle.
        const paths = [...body.matchAll(/<path stroke="([^"]*)"([^>]*) d="([^"]*)"/g)]
            .filter(([, colour]) => colour !== '#ffffff').map(([, , how, d]) => ({ d, mirrored: how.includes('stroke-width') }));
        const tops = paths.map(({ d }) => Number(/^M\d+ (\d+)/.exec(d)[1]));
        const labels = [...body.matchAll(/<text x="(\d+)" y="(\d+)" font-size="\d+" text-anchor="(start|end)">([−\d]+)</g)];
        const window = labels.filter(([, , , anchor]) => anchor === 'start').map(([, , , , entry]) => Number(entry.replace('−', '-')));
        const heights = [...new Set(labels.map(([, , y]) => Number(y)))];
        const [first, lane] = [Math.min(...tops), heights[1] - heights[0]];
        return {
            kind: head[1], rank: Number(head[2]), word: head[3].trim().split(' ').map(Number), window,
            drawn: { ...counted(arcsOf(paths), y => (y - first) / lane), dots: (body.match(/<circle/g) ?? []).length },
        };
    });
}

for (const file of ['docs/preset.svg', 'tests/pictures/a2.svg', 'tests/pictures/b2.svg', 'tests/pictures/b20.svg', 'tests/pictures/d64.svg']) {
    test(`crossings and ends are those of ${file}`, () => {
        const drawings = commandsDrawings(readFileSync(pictures + file, 'utf8'));
        assert.ok(drawings.length > 0);
        for (const { kind, rank, word, window, drawn } of drawings) {
            assert.deepEqual(ours(kind, rank, word), drawn);
            assert.deepEqual(partOf(library, { kind, rank, word }).final, window);
        }
    });
}

test('every strand ends on the screen that the library says, mirrored as it says, whole or in part', () => {
    const random = dice(1);
    for (const [kind, rank] of RIGS) {
        const word = randomWord(random, rank, 70);
        const window = library.window(kind, rank, word);
        for (const [first, count] of [[0, 70], [13, 20], [50, 20]]) {
            const part = partOf(library, { kind, rank, word }, first, count);
            for (const source of part.straight) {
                const { begin, places, end } = strandOf(part, source);
                assert.deepEqual(begin, { lane: source - 1, mirrored: false });
                assert.equal(window[end.lane], end.mirrored ? -source : source);
                assert.equal(places.length, part.letters.length + 1);
                for (let at = 0; at < part.letters.length; at++) assert.ok(Math.abs(places[at + 1].lane - places[at].lane) <= 1);
            }
        }
    }
});

test('steps stand closer where all can be seen then', () => {
    assert.equal(fittedColumn(8, 44, 1000), 44);
    assert.equal(fittedColumn(8, 44, 300), 33);
    assert.equal(fittedColumn(8, 44, 252), 28);
    assert.equal(fittedColumn(4096, 44, 400), 32);
    assert.equal(visibleSteps(8, 0, { column: 28, fold: 56 }, 252).count, 8);
});

test('64 strands are told apart by colour and dash together', () => {
    const styles = new Set(Array.from({ length: 64 }, (_, at) => colourOf(at + 1) + dashOf(at + 1)));
    assert.equal(styles.size, 64);
    assert.equal(new Set(DASHES).size, 8);
});

test('a mirrored view is the other one turned over', () => {
    assert.notEqual(viewMarkup(3, true), viewMarkup(3, false));
    assert.equal(viewMarkup(3, true).replace(' transform="translate(44 0) scale(-1 1)"', ''), viewMarkup(3, false));
});

test('long words are drawn in part, and the part always has the steps asked for', () => {
    const space = spacing(64, 1000);
    for (const [total, wanted, width] of [[0, 0, 400], [5, 0, 400], [4096, 0, 400], [4096, 4095, 400], [4096, 2000, 100], [9, 3, 60]]) {
        const { first, count } = visibleSteps(total, wanted, space, width);
        assert.ok(first >= 0 && first + count <= total && (total === 0 || count > 0));
        assert.ok((count + 1) * space.column <= width || count === 1);
        if (count < total) assert.ok(first <= wanted && wanted <= first + count || wanted > total - count);
    }
    const word = Array.from({ length: 4096 }, (_, at) => 1 + at % 64);
    assert.ok(pictureMarkup(library, { kind: 'D', rank: 64, word }).length < 200000);
});
