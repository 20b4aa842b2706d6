// The cabin: where screens stand, what fits on them, and how two pictures differ.
import assert from 'node:assert/strict';
import { test } from 'node:test';
import { cabinPicture, differenceText, differences, fitted, textWidth } from '../src/cabin_picture.mjs';
import { draftOf, readDraft } from '../src/draft.mjs';
import { LEAST_PLACE, NO_NAMES, placeFault, readNames, withName, withPlace } from '../src/names.mjs';
import { MOST_BYTES, photographName, sizeFault } from '../src/photographs.mjs';
import { gridPlace, largestFirst, moved, overlap, placesIn, shapeOf, sized, typedPlace, unplaced } from '../src/places.mjs';
import { FIRST_STATE } from '../src/state.mjs';
import { dice, library } from './library.mjs';

test('the grid has a place for every screen of every rig, inside the cabin and apart', () => {
    for (let lanes = 2; lanes <= 64; lanes++) {
        const places = placesIn(NO_NAMES, lanes);
        for (const place of places) {
            assert.equal(placeFault(place), null);
            assert.ok(Object.values(place).every(Number.isInteger) && place.left >= 0 && place.top >= 0);
        }
        places.forEach((one, at) => places.slice(at + 1).forEach(two => assert.ok(!overlap(one, two), `${lanes} lanes`)));
    }
    const place = { left: 490, top: 0, width: 500, height: 500 };
    const names = withPlace(NO_NAMES, 2, place);
    assert.deepEqual(placesIn(names, 3), [gridPlace(1, 3), place, gridPlace(3, 3)]);
    assert.deepEqual([unplaced(names, 3), unplaced(NO_NAMES, 3), unplaced(names, 1)], [[1, 3], [], []]);
    assert.deepEqual(largestFirst(placesIn(names, 3)), [2, 1, 3]);
});

test('a screen that was not arranged is not hidden by one that was', () => {
    const arranged = [[250, 120, 500, 400], [60, 330, 140, 260], [20, 640, 260, 300], [430, 600, 180, 220], [800, 330, 140, 260]];
    const names = arranged.reduce((all, [left, top, width, height], at) => withPlace(all, at + 1, { left, top, width, height }), NO_NAMES);
    for (const lanes of [6, 8, 20, 64]) {
        const places = placesIn(names, lanes);
        assert.deepEqual(places.slice(0, 5).map(({ left, top, width, height }) => [left, top, width, height]), arranged);
        for (const place of places) assert.equal(placeFault(place), null);
        places.forEach((one, at) => places.slice(Math.max(at + 1, 5)).forEach(two => assert.ok(!overlap(one, two), `${lanes} lanes`)));
    }
    const full = withPlace(NO_NAMES, 1, { left: 0, top: 0, width: 1000, height: 1000 });
    assert.deepEqual(placesIn(full, 2)[1], gridPlace(2, 2));
});

test('whatever moves or sizes a screen leaves a place that the format takes', () => {
    const random = dice(11);
    let place = gridPlace(1, 5);
    for (let run = 0; run < 2000; run++) {
        place = (random(2) ? moved : sized)(place, random(900) - 450, random(900) - 450);
        assert.equal(placeFault(place), null);
        assert.ok(place.left >= 0 && place.top >= 0);
    }
    const start = { left: 100, top: 100, width: 200, height: 200 };
    assert.deepEqual(moved(start, 10, -10), { ...start, left: 110, top: 90 });
    assert.deepEqual(moved(start, 5000, -5000), { ...start, left: 800, top: 0 });
    assert.deepEqual(sized(start, -5000, 5000), { ...start, width: LEAST_PLACE, height: 900 });
});

test('a typed place is taken, or what is wrong is said', () => {
    const start = { left: 100, top: 100, width: 200, height: 200 };
    assert.deepEqual(typedPlace(start, 'left', ' 12,5 % ').place, { ...start, left: 125 });
    assert.deepEqual(typedPlace(start, 'height', '90').place, { ...start, height: 900 });
    for (const text of ['', 'x', '-1', '12.55', '1000', '1e1']) assert.match(typedPlace(start, 'left', text).fault, /Type a number/, text);
    assert.match(typedPlace(start, 'width', '1.9').fault, /at least 2 %/);
    assert.match(typedPlace(start, 'left', '80.1').fault, /left and width make 100.1 %.* It is taken as soon as width is 19.9 % or less\.$/);
    assert.match(typedPlace(start, 'height', '91').fault, /top and height make 101 %.* It is taken as soon as top is 9 % or less\.$/);
    assert.match(typedPlace(start, 'left', '99').fault, /100 % is all there is\.$/);
});

test('two pictures differ where they differ, and it is said in names', () => {
    const names = readNames(new TextEncoder().encode('screen 2 left mirror\nsource 5 rear left\nsource 1 left door\n'));
    const [now, wanted] = [[3, -5, 2, 4, 1], [3, 1, 2, 4, -5]];
    assert.deepEqual(differences(now, wanted), [2, 5]);
    assert.equal(differenceText(names, 2, now, wanted, 'wanted'), 'screen 2 left mirror: shows 5 rear left mirrored, wanted 1 left door');
    assert.deepEqual(differences([1, 2], [1, 2, 3]), [3]);
    assert.equal(differenceText(names, 3, [1, 2], [1, 2, 3], 'in preset 4'), 'screen 3: is not in the present picture, in preset 4 it shows source 3');
    assert.equal(differenceText(names, 3, [1, 2, -3], [1, 2], 'in preset 4'), 'screen 3: shows source 3 mirrored, is not in preset 4');
});

test('the picture has every screen, and turns over the view of a mirrored one', () => {
    const names = withName(NO_NAMES, 'screen', 1, 'a & <b>');
    const window = library.window('D', 5, [4, 4, 2, 5, 3, 5, 1, 2]);
    const picture = cabinPicture({ window, names, width: 900, against: [...window.slice(0, 4), 9] });
    const screens = [...picture.matchAll(/data-screen="(\d+)" data-entry="(-?\d+)"( data-differs="yes")?/g)].map(([, screen, entry, differs]) => [Number(screen), Number(entry), Boolean(differs)]);
    assert.deepEqual(screens.sort((one, two) => one[0] - two[0]), window.map((entry, at) => [at + 1, entry, at === 4]));
    const mirrored = window.filter(entry => entry < 0).length;
    assert.equal(picture.match(/scale\(-1 1\)/g).length, mirrored);
    assert.equal(picture.match(/>mirrored</g).length, mirrored);
    assert.equal(picture.match(/cabin-double/g).length, mirrored);
    assert.equal(picture.match(/≠/g).length, 1);
    assert.ok(picture.includes('1 a &amp; &lt;b&gt;') && !picture.includes('<b>'));
    assert.ok(!picture.includes('<image'));
    const over = cabinPicture({ window, names, width: 900, photograph: { url: 'data:x', width: 400, height: 300 } });
    assert.match(over, /viewBox="0 0 900 675".*<image href="data:x"/s);
    assert.doesNotMatch(over, /cabin-note/);
    // A screen that only stands somewhere is not printed as if it stood there in the cabin.
    const placed = withPlace(names, 1, { left: 250, top: 100, width: 500, height: 350 });
    assert.match(cabinPicture({ window: [1, 2], names: placed }), /<text[^>]*class="cabin-note"[^>]*>Screen 2 has no place yet and stands where there is room\.</);
    assert.doesNotMatch(cabinPicture({ window: [1, 2], names: placed, noted: false }), /no place yet/);
    assert.equal(shapeOf(null), 16 / 9);
    for (const width of [200, 300, 500, 2000]) {
        for (const rank of [5, 64]) assert.doesNotMatch(cabinPicture({ window: library.straight('B', rank), names, width }), /NaN|undefined/);
    }
});

test('text is cut to what fits, with its front kept', () => {
    assert.equal(fitted('2 left mirror', 12, 500), '2 left mirror');
    const cut = fitted('2 left mirror', 12, 50);
    assert.ok(/^2.*…$/.test(cut) && textWidth(cut, 12) <= 50);
    assert.equal(fitted('abc', 12, 3), '');
});

test('a photograph has a name that the names can hold, and a size', () => {
    const names = { 'a b.jpg': 'a b.jpg', 'x/y\\z.png': 'x-y-z.png', '.': 'photograph', '..': 'photograph', '': 'photograph', 'a\u202eb.png': 'ab.png' };
    for (const [name, expected] of Object.entries(names)) assert.equal(photographName(name), expected);
    assert.equal(photographName(`${'x'.repeat(90)}.jpeg`), `${'x'.repeat(75)}.jpeg`);
    assert.equal(sizeFault({ name: 'a.jpg', size: MOST_BYTES }), null);
    assert.match(sizeFault({ name: 'a.jpg', size: MOST_BYTES + 1048576 }), /a\.jpg has 26 MB\..*25 MB at most/);
});

test('a draft holds the photograph by its key', () => {
    const photograph = { file: 'cabin.jpg', key: 'k1', beside: false };
    const about = { saved: false, typed: null, time: 5 };
    assert.deepEqual(readDraft(library, draftOf({ ...FIRST_STATE, word: [1], photograph }, about)).state.photograph, photograph);
    const older = JSON.stringify({ ...JSON.parse(draftOf({ ...FIRST_STATE, word: [1] }, about)), photograph: undefined });
    assert.equal(readDraft(library, older).state.photograph, null);
});
