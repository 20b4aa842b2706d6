// What is proved, in five sentences.
import { make } from './dom.mjs';

export const SENTENCES = [
    'Every answer about presets and books on this page comes from the Winnathey library; the page itself only adds up the counts of a delay table.',
    'For that library it is proved, for every input, that each answer is the one defined by what the steps do to the lanes.',
    'It is proved too that a shortest version shows the same as the word it comes from, and that no shorter word does.',
    'The compiler, its WebAssembly output and this page, with its drawings, texts and files, are not proved; they are tested.',
    'Names and titles are yours: no proof looks at them.',
];

export function showProved(root, { version, hash }) {
    root.append(make('ol', {}, SENTENCES.map(sentence => make('li', {}, sentence))),
        make('p', {}, 'Library version ', make('strong', { id: 'version' }, version), ', SHA-256 ', make('code', { id: 'hash' }, hash)));
}
