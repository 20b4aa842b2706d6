// The file: built twice it has the same bytes, and it names nothing outside itself.
import assert from 'node:assert/strict';
import { execFileSync } from 'node:child_process';
import { mkdtempSync, readFileSync, readdirSync, rmSync } from 'node:fs';
import { tmpdir } from 'node:os';
import { join } from 'node:path';
import { test } from 'node:test';
import { root } from './library.mjs';

const page = `${root}page/`;

test('built twice, the same bytes, and nothing outside is named', () => {
    const folder = mkdtempSync(join(tmpdir(), 'page-'));
    try {
        const [one, two] = ['one.html', 'two.html'].map(name => {
            execFileSync(process.execPath, [`${page}build`, join(folder, name)]);
            return readFileSync(join(folder, name));
        });
        assert.ok(one.equals(two));
        const text = one.toString();
        assert.match(text, /default-src 'none'/);
        const outside = [...text.matchAll(/(?:src|href)="([^"]*)"|url\(([^)]*)\)/g)].map(match => match[1] ?? match[2]).filter(link => link !== 'data:,');
        assert.deepEqual(outside, []);
        assert.doesNotMatch(text.replace(/<script type="application[^]*?<\/script>/, ''), /https?:\/\//);
    } finally {
        rmSync(folder, { recursive: true });
    }
});

test('the library is loaded in one place and called in one module, and no function is long', () => {
    for (const file of readdirSync(`${page}src`).filter(name => name.endsWith('.mjs'))) {
        const text = readFileSync(`${page}src/${file}`, 'utf8');
        assert.equal(text.includes('winnathey.mjs\''), file === 'main.mjs', file);
        if (file !== 'library.mjs') assert.doesNotMatch(text, /\bw\.[a-z]/, file);
        for (const [body] of text.matchAll(/^ {0,4}(?:export )?(?:async )?(?:function |#?\w+\(|static ).*\{$[^]*?^ {0,4}\}$/gm)) {
            assert.ok(body.split('\n').length <= 45, `${file}: ${body.split('\n')[0]}`);
        }
    }
});
