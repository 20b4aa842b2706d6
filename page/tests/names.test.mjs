// The names beside a book, line by line as their format says.
import assert from 'node:assert/strict';
import { readFileSync } from 'node:fs';
import { test } from 'node:test';
import {
    NO_NAMES, WrongNames, cleaned, delayOf, labelled, nameOf, photographOf, placesOf, readNames, rigNames, withDelay, withName, withPhotograph, withPlace, withRigNamesOf, writeNames,
} from '../src/names.mjs';

const read = text => readNames(new TextEncoder().encode(text));
const written = names => new TextDecoder().decode(writeNames(names));
const wrongLine = text => {
    try {
        read(text);
    } catch (error) {
        assert.ok(error instanceof WrongNames);
        return error.line;
    }
    return null;
};

test('names are read', () => {
    const names = read('\ufeff# Cabin 3\r\n  screen\t3   left  mirror  \r\n\r\nsource 07 rear view\r\npreset 0 A #1');
    assert.equal(nameOf(names, 'screen', 3), 'left  mirror');
    assert.equal(nameOf(names, 'source', 7), 'rear view');
    assert.equal(nameOf(names, 'preset', 0), 'A #1');
    assert.equal(nameOf(names, 'screen', 1), '');
    assert.equal(labelled(names, 'source', 7), '7 rear view');
    assert.equal(labelled(names, 'source', 8), '8');
    assert.equal(names.end, '\r\n');
});

test('what the format does not allow is told with its line', () => {
    assert.equal(wrongLine('source 1 sky\n'), null);
    assert.equal(wrongLine(''), null);
    for (const line of ['preset 0', 'source 0 sky', 'screen 65 wall', 'Source 1 sky', 'source one sky', 'source 123456 sky', 'preset 65536 x', 'Layout 1', '1', 'source 1 a\u202eb', 'source 1 a\tb', `source 1 ${'x'.repeat(81)}`, 'source +1 x']) {
        assert.equal(wrongLine(`# a\n${line}\n`), 2, line);
    }
    assert.equal(wrongLine('source 1 sky\nscreen 1 wall\nsource 01 sky\n'), 3);
    assert.equal(wrongLine(`source 1 ${'\u{1f69c}'.repeat(80)}\n`), null);
    assert.throws(() => readNames(Uint8Array.of(35, 10, 0xff, 10)), error => error.line === 2);
    assert.throws(() => readNames(new Uint8Array(1048577).fill(10)), WrongNames);
});

test('a line of a later version is kept and ignored', () => {
    const names = read('layout-2 3 4\nsource 1 rear view\nlayout-2 3 4\n');
    assert.equal(nameOf(names, 'source', 1), 'rear view');
    assert.equal(written(withName(names, 'source', 1, 'rear')), 'layout-2 3 4\nsource 1 rear\nlayout-2 3 4\n');
});

test('a change keeps comments, empty lines and order', () => {
    const names = read('# one\nsource 1 rear view\n\nscreen 1 windscreen\n# end\n');
    assert.equal(written(withName(names, 'source', 2, ' left door ')), '# one\nsource 1 rear view\nsource 2 left door\n\nscreen 1 windscreen\n# end\n');
    assert.equal(written(withName(names, 'preset', 0, 'Yard')), '# one\nsource 1 rear view\n\nscreen 1 windscreen\n# end\npreset 0 Yard\n');
    assert.equal(written(withName(names, 'source', 1, 'rear')), '# one\nsource 1 rear\n\nscreen 1 windscreen\n# end\n');
    assert.equal(written(withName(names, 'screen', 1, '')), '# one\nsource 1 rear view\n\n# end\n');
    assert.equal(withName(names, 'source', 1, 'rear view'), names);
    assert.equal(written(withName(NO_NAMES, 'source', 1, 'a')), 'source 1 a\n');
    assert.equal(written(withName(read('source 1 a\r\n'), 'source', 2, 'b')), 'source 1 a\r\nsource 2 b\r\n');
});

test('whatever is typed becomes a name that reads back, or none', () => {
    for (const text of [' a ', 'a\tb', 'a\u202eb\u0007', '\u{1f69c}'.repeat(90), '', '   ', '# x', 'x'.repeat(79) + ' y']) {
        const name = cleaned(text);
        if (name === '') continue;
        assert.equal(nameOf(read(written(withName(NO_NAMES, 'preset', 5, text))), 'preset', 5), name);
    }
    assert.equal(cleaned('a\u202eb'), 'ab');
});

test('the names of another book fill what has none, and no preset', () => {
    const others = read('source 1 front\nscreen 2 mirror\npreset 0 Yard\n');
    assert.equal(written(rigNames(others)), 'source 1 front\nscreen 2 mirror\n');
    assert.equal(written(withRigNamesOf(read('source 1 rear\n'), others)), 'source 1 rear\nscreen 2 mirror\n');
    assert.equal(written(withRigNamesOf(NO_NAMES, others)), 'source 1 front\nscreen 2 mirror\n');
});

const DOCUMENT = readFileSync(new URL('../../docs/NAMES.md', import.meta.url), 'utf8');

test("the document's file is read and written as it is", () => {
    const text = /```\n(.*?)```/s.exec(DOCUMENT)[1];
    const names = read(text);
    assert.deepEqual([...placesOf(names)], [[1, { left: 250, top: 100, width: 500, height: 350 }], [3, { left: 40, top: 420, width: 160, height: 200 }]]);
    assert.deepEqual([photographOf(names), delayOf(names), nameOf(names, 'screen', 3)], ['cabin-3.jpg', '2.5', 'left mirror']);
    assert.equal(written(names), text);
});

test("the document's examples are what it says", () => {
    const rows = [...DOCUMENT.split('## Examples')[1].matchAll(/^\| `([^`]*)`( twice)? \| (.*) \|$/gm)];
    assert.ok(rows.length >= 12);
    for (const [, line, twice, what] of rows) {
        const text = `${line}\n${twice ? `${line}\n` : ''}`;
        assert.equal(wrongLine(text), what.startsWith('wrong') ? (twice ? 2 : 1) : null, line);
    }
    assert.deepEqual(placesOf(read('\tplace  03\t40 0420 160   200  ')).get(3), { left: 40, top: 420, width: 160, height: 200 });
});

test('places, the photograph and the delay follow their rules', () => {
    for (const line of ['place 1 0 0 20 20', 'place 64 980 980 20 20', 'place 1 0 0 1000 1000', 'photograph a b.jpg', 'photograph ...', `photograph ${'x'.repeat(80)}`, 'photograph 1', 'delay 1', 'delay 9999.999', 'delay 0.001', 'delay 0002.50']) {
        assert.equal(wrongLine(line), null, line);
    }
    const places = ['place', 'place 1', 'place 0 0 0 20 20', 'place 65 0 0 20 20', 'place 1 0 0 20', 'place 1 0 0 20 20 5', 'place 1 0 0 20 20 # x', 'place 1 -1 0 20 20', 'place 1 00000 0 20 20', 'place 1 0 0 19 20', 'place 1 0 0 20 19', 'place 1 981 0 20 20', 'place 1 0 981 20 20', 'place 1 1.5 0 20 20', 'place x 0 0 20 20'];
    const photographs = ['photograph', 'photograph .', 'photograph ..', 'photograph a\\b', 'photograph /a', 'photograph a\u202eb', `photograph ${'x'.repeat(81)}`];
    const delays = ['delay', 'delay 0', 'delay 0.000', 'delay .5', 'delay 5.', 'delay 12345', 'delay 1.2345', 'delay +1', 'delay 1 ms', 'delay 1e3'];
    for (const line of [...places, ...photographs, ...delays]) assert.equal(wrongLine(`# a\n${line}\n`), 2, line);
    assert.equal(wrongLine('place 1 0 0 20 20\nplace 2 0 0 20 20\nplace 01 0 0 20 20\n'), 3);
    assert.equal(wrongLine('photograph a\nphotograph b\n'), 2);
    assert.equal(wrongLine('delay 1\ndelay 1\n'), 2);
    assert.equal(wrongLine('screen 1 a\nplace 1 0 0 20 20\n'), null);
});

test('a changed place, photograph or delay replaces its line', () => {
    const names = read('place 3 40 420 160 200\n# x\nscreen 1 a\n');
    const place = { left: 0, top: 5, width: 500, height: 20 };
    assert.equal(written(withPlace(names, 3, place)), 'place 3 0 5 500 20\n# x\nscreen 1 a\n');
    assert.equal(written(withPlace(names, 1, place)), 'place 3 40 420 160 200\nplace 1 0 5 500 20\n# x\nscreen 1 a\n');
    assert.equal(written(withPlace(names, 3, null)), '# x\nscreen 1 a\n');
    assert.equal(withPlace(names, 3, { left: 40, top: 420, width: 160, height: 200 }), names);
    assert.equal(withPlace(names, 2, null), names);
    const all = withDelay(withPhotograph(names, 'a b.jpg'), '2.5');
    assert.equal(written(all), 'place 3 40 420 160 200\n# x\nscreen 1 a\nphotograph a b.jpg\ndelay 2.5\n');
    assert.equal(written(withPhotograph(withDelay(all, '3'), 'c.png')), 'place 3 40 420 160 200\n# x\nscreen 1 a\nphotograph c.png\ndelay 3\n');
    assert.equal(written(withPhotograph(withDelay(all, ''), '')), written(names));
    assert.deepEqual([withPhotograph(all, 'a b.jpg'), withDelay(all, '2.5')], [all, all]);
});

test('the cabin of another book is taken over with its names', () => {
    const others = read('# theirs\nplace 1 0 0 20 20\nplace 2 0 0 20 20\nphotograph a.jpg\ndelay 2.5\nseat 1 x\npreset 0 Yard\n');
    assert.equal(written(withRigNamesOf(read('place 2 5 5 50 50\ndelay 1\n'), others)), 'place 2 5 5 50 50\nplace 1 0 0 20 20\ndelay 1\nphotograph a.jpg\n');
});
