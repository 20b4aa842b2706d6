// Refusals for the person who reads them: beside each sentence of the library, what is wrong, where, and what to do.
import { listed } from './text.mjs';

const COPY = 'Open the original file or a copy of it.';
const FAULT = 'This is a mistake of the page and not yours: nothing was changed. Please report it.';
const DAMAGED = 'The other presets can be used; remove this one, or take it from a copy of the book.';

/** A preset by its number, where one is known. */
function presetText({ preset }) {
    return preset === undefined ? 'The preset' : `Preset ${preset}`;
}

function rankText({ preset, kind, ranks, first }) {
    if (first) return 'A book of the first edition takes rigs of up to 32 lanes. Convert the book to the second edition, or choose a smaller rank.';
    if (preset !== undefined) return `Preset ${preset} is damaged: no rig has its rank. ${DAMAGED}`;
    const range = ranks ? `Kind ${kind} takes ${ranks[0]} to ${ranks.at(-1)}.` : 'Each kind of rig has its own range.';
    return `There is no rig of this rank. ${range} Type another rank.`;
}

function stepText({ preset, step, at, rank }) {
    if (preset !== undefined) return `Preset ${preset} is damaged: it has a step that its rig does not have. ${DAMAGED}`;
    const which = step === undefined ? 'One step of the word' : `Step ${step}${at === undefined ? '' : `, number ${at + 1} of the word,`}`;
    const range = rank === undefined ? '' : `: its steps are 1 to ${rank}`;
    return `${which} does not exist in this rig${range}. Type another number, or choose a greater rank.`;
}

function screensText({ kind }) {
    if (kind === 'A') return 'Kind A mirrors nothing: turn the marked views back.';
    return 'Each source has to be on one screen, and on one only. Set all screens straight and begin anew.';
}

/** Modules by their numbers; many of them only by how many they are. */
export function modulesText(failed, rank) {
    if (failed.length === rank) return 'any module';
    if (failed.length > 8) return `the ${failed.length} failed modules`;
    return failed.length === 1 ? `module ${failed[0]}` : `modules ${listed(failed)}`;
}

function failedText({ failed = [], rank }) {
    return `Without ${failed.length === 0 ? 'the failed modules' : modulesText(failed, rank)}, no steps lead to this picture. Choose another picture, or untick in Modules what works again.`;
}

const TEXTS = {
    1: () => 'This file is no preset book: it is too small for one, or larger than a book can be (65,535 bytes). Choose another file.',
    2: () => `This file is no preset book, or its end is missing: it would have more presets than it has room for. ${COPY}`,
    3: () => `This file is no preset book, or it was damaged: where its presets begin and end does not fit together. ${COPY}`,
    4: () => 'The book has no preset of this number. Presets are numbered from 0: choose one of the list.',
    5: where => `${presetText(where)} is damaged: it is for no kind of rig that there is. ${DAMAGED}`,
    6: rankText,
    7: ({ preset }) => `${preset === undefined ? 'The word' : `Preset ${preset}`} is too long: it can have 4,096 steps at most. Remove steps, or use the shortest version.`,
    8: stepText,
    9: () => 'The picture has another number of screens than the rig. Set all screens straight and begin anew.',
    10: screensText,
    11: () => 'Kind D mirrors two views at a time: mirror one view more, or one fewer.',
    12: () => 'The word has no step at this place. Choose a place further in front.',
    13: () => 'The book is full: with this preset it would be larger than 65,535 bytes. Remove a preset, or start another book.',
    14: () => `There was too little room for the answer. ${FAULT}`,
    15: () => `There was too little room for the lines of the rewriting. ${FAULT}`,
    16: () => 'A module was named that this rig does not have. Press None has failed in Modules, and tick the failed ones anew.',
    17: where => `${presetText(where)} is damaged: its number of lanes does not fit its rig. ${DAMAGED}`,
    18: where => `A book of the first edition takes rigs of up to 32 lanes. ${presetText(where)} has more: remove it, or stay with the second edition.`,
    19: failedText,
    20: () => 'Delays are counted for smaller rigs only. Choose rank 19 or less in kind A, 16 or less in kinds B and D.',
    21: () => 'Books do not take rigs of kind A and rank 1 any more. Choose rank 2 or more.',
};

/** What a refusal means for the person at the page; `where` has what is known about it: preset, step and place, rig, failed modules. */
export function plainText(number, where = {}) {
    return TEXTS[number](where);
}

/** The library's own sentence with its number. */
export function libraryText({ number, text }) {
    return `(Refusal ${number}: ${text})`;
}

/** Both in one text. */
export function toldText(refusal, where) {
    return `${plainText(refusal.number, where)} ${libraryText(refusal)}`;
}
