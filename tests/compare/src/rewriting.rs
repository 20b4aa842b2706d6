//! Single rewrites: each rule, and whole rewritings.
use crate::inputs::{Random, rigs};
use crate::sides::{ROOM, Sides};
use plain::Rule;

/// A word that is the left side of a rule, found by asking for each step in turn what the block is.
fn left_side(kind: u32, n: u8, rule: Rule) -> Vec<u8> {
    let Rule { family, i, j } = rule;
    let block = |i: u8, j: u8| -> Vec<u8> {
        if kind == plain::D && j >= n {
            (i..=n - 2).chain([n]).chain((2 * n - j..n).rev()).collect()
        } else if j > n {
            (i..=n).chain((2 * n - j..n).rev()).collect()
        } else {
            (i..=j).collect()
        }
    };
    let with = |mut word: Vec<u8>, last: u8| {
        word.push(last);
        word
    };
    match family {
        1 => vec![i, i],
        2 => vec![i, j],
        3 => with(block(i, j), i),
        4 => with(block(i, 2 * n - i), i + 1),
        5 => vec![n - 2, n, n - 2],
        6 => with(block(n - 2, n + 2), n),
        _ => with(block(n - 2, n + 2), n - 1),
    }
}

/// The ranks where each rule is tried in each way; at higher ones, where there are more and longer rules, in fewer.
const EACH_WAY: u32 = 20;

pub fn each_rule(sides: &mut Sides) {
    let mut random = Random(7);
    for (kind, rank) in rigs() {
        let n = rank as u8;
        for rule in plain::rules(kind, n) {
            let left = left_side(kind, n, rule);
            let due = [rule.family, rule.i, rule.j];
            if rank > EACH_WAY {
                in_few_ways(sides, &mut random, (kind, rank), &left, due);
                continue;
            }
            // The left side alone, at the end, at the start, in the middle.
            for (before, after) in [(0, 0), (5, 0), (0, 5), (3, 4)] {
                let mut word = random.word(kind, rank, before);
                word.extend(&left);
                word.extend(random.word(kind, rank, after));
                let answer = sides.each_length(|sides, out| sides.rewrite(kind, rank, &word, before, out, 3));
                assert!(answer >= 0, "kind {kind}, rank {rank}: {rule:?} does not fit");
                sides.rewrite(kind, rank, &word, before, ROOM, 3);
                assert_eq!(sides.rule(), due, "kind {kind}, rank {rank}");
                let new = sides.bytes(answer).to_vec();
                sides.same((kind, rank, &word), (kind, rank, &new));
                for short in 0..3 {
                    sides.rewrite(kind, rank, &word, before, ROOM, short);
                }
                for place in before + 1..=word.len() {
                    sides.rewrite(kind, rank, &word, place, word.len(), 3);
                }
            }
            // Without its last letter it does not fit.
            for short in 1..left.len() {
                let answer = sides.rewrite(kind, rank, &left[..short], 0, ROOM, 3);
                assert_eq!(answer, plain::NONE_FITS);
            }
            // One letter changed.
            for at in 0..left.len() {
                let mut word = left.clone();
                word[at] = random.below(n.into()) as u8 + 1;
                sides.rewrite(kind, rank, &word, 0, ROOM, 3);
            }
        }
    }
}

/// The left side with letters around it, without its last letter, and with one letter changed.
fn in_few_ways(sides: &mut Sides, random: &mut Random, (kind, rank): (u32, u32), left: &[u8], due: [u8; 3]) {
    let before = random.below(4);
    let mut word = random.word(kind, rank, before);
    word.extend(left);
    word.extend(random.word(kind, rank, 3));
    let answer = sides.rewrite(kind, rank, &word, before, word.len(), 3);
    assert!(answer >= 0, "kind {kind}, rank {rank}: {due:?} does not fit");
    assert_eq!(sides.rule(), due, "kind {kind}, rank {rank}");
    let new = sides.bytes(answer).to_vec();
    sides.same((kind, rank, &word), (kind, rank, &new));
    sides.rewrite(kind, rank, &word, before, new.len() - 1, 3);
    sides.rewrite(kind, rank, &word, before, new.len(), 2);
    sides.rewrite(kind, rank, &word, before + 1, word.len(), 3);
    assert_eq!(sides.rewrite(kind, rank, &left[..left.len() - 1], 0, left.len(), 3), plain::NONE_FITS);
    let mut changed = left.to_vec();
    changed[random.below(left.len())] = random.below(rank as usize) as u8 + 1;
    sides.rewrite(kind, rank, &changed, 0, left.len(), 3);
}

pub fn to_the_end(sides: &mut Sides) {
    let mut random = Random(8);
    for round in 0..3000 {
        let (kind, rank) = random.rig();
        let letters = if round % 50 == 0 { 300 } else { random.below(50) };
        let first = random.word(kind, rank, letters);
        let mut word = first.clone();
        loop {
            // From a random place round to it again, until a rule is used or none fits anywhere.
            let start = random.below(word.len());
            let mut used = false;
            for at in 0..word.len() {
                let place = (start + at) % word.len();
                let answer = sides.rewrite(kind, rank, &word, place, word.len(), 3);
                if answer >= 0 {
                    word = sides.bytes(answer).to_vec();
                    used = true;
                    break;
                }
            }
            if !used {
                break;
            }
        }
        let answer = sides.normal_form_of_word(kind, rank, &first, ROOM);
        assert_eq!(sides.bytes(answer), word, "kind {kind}, rank {rank}: {first:?} does not end in its normal form");
    }
}
