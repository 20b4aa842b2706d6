// Colours: text is readable, lines are seen, and the eight strand colours stay apart for every kind of sight.
import assert from 'node:assert/strict';
import { readFileSync } from 'node:fs';
import { test } from 'node:test';
import { root } from './library.mjs';

const style = readFileSync(`${root}page/src/style.css`, 'utf8');
const blocks = [...style.matchAll(/:root \{([^}]*)\}/g)].map(match => Object.fromEntries([...match[1].matchAll(/--([\w-]+): (#[0-9a-f]{6})/g)].map(([, name, value]) => [name, value])));
const modes = { light: blocks[0], dark: blocks[1], paper: { ...blocks[0], ...blocks[2] } };

const rgb = hex => [1, 3, 5].map(at => parseInt(hex.slice(at, at + 2), 16) / 255);
const linear = hex => rgb(hex).map(c => (c <= 0.04045 ? c / 12.92 : ((c + 0.055) / 1.055) ** 2.4));
const luminance = hex => linear(hex).reduce((sum, c, at) => sum + c * [0.2126, 0.7152, 0.0722][at], 0);
function contrast(one, two) {
    const [low, high] = [luminance(one) + 0.05, luminance(two) + 0.05].sort((a, b) => a - b);
    return high / low;
}

/** Full sight, and without one of the three sorts of cones (Machado, Oliveira and Fernandes, 2009). */
const SIGHTS = [
    [1, 0, 0, 0, 1, 0, 0, 0, 1],
    [0.152286, 1.052583, -0.204868, 0.114503, 0.786281, 0.099216, -0.003882, -0.048116, 1.051998],
    [0.367322, 0.860646, -0.227968, 0.280085, 0.672501, 0.047413, -0.01182, 0.04294, 0.968881],
    [1.255528, -0.076749, -0.178779, -0.078411, 0.930809, 0.147602, 0.004733, 0.691367, 0.3039],
];

/** A colour in CIELAB, as one kind of sight sees it. */
function lab(hex, sight) {
    const l = linear(hex);
    const [r, g, b] = [0, 3, 6].map(row => Math.min(1, Math.max(0, sight[row] * l[0] + sight[row + 1] * l[1] + sight[row + 2] * l[2])));
    const f = t => (t > 0.008856 ? Math.cbrt(t) : 7.787 * t + 16 / 116);
    const [x, y, z] = [(0.4124 * r + 0.3576 * g + 0.1805 * b) / 0.95047, 0.2126 * r + 0.7152 * g + 0.0722 * b, (0.0193 * r + 0.1192 * g + 0.9505 * b) / 1.08883].map(f);
    return [116 * y - 16, 500 * (x - y), 200 * (y - z)];
}

for (const [mode, colours] of Object.entries(modes)) {
    test(`${mode}: text has a contrast of 4.5, lines and strands of 3`, () => {
        for (const [text, ground] of [['ink', 'ground'], ['ink', 'raised'], ['ink', 'tint'], ['quiet', 'ground'], ['quiet', 'raised'], ['accent', 'ground'], ['accent', 'tint'], ['on-accent', 'accent']]) {
            const [one, two] = [colours[text], colours[ground]];
            assert.ok(contrast(one, two) >= 4.5, `${text} on ${ground}: ${contrast(one, two)}`);
        }
        for (const line of ['field', 's1', 's2', 's3', 's4', 's5', 's6', 's7', 's8']) assert.ok(contrast(colours[line], colours.ground) >= 3, line);
    });
    test(`${mode}: eight colours stay apart for every kind of sight`, () => {
        const strands = Array.from({ length: 8 }, (_, at) => colours[`s${at + 1}`]);
        for (const sight of SIGHTS) {
            const seen = strands.map(hex => lab(hex, sight));
            seen.forEach((one, at) => seen.slice(0, at).forEach(two => assert.ok(Math.hypot(one[0] - two[0], one[1] - two[1], one[2] - two[2]) >= 25)));
        }
    });
}
