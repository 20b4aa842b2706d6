//! Rewritings to their end, line by line: replayed with single rewrites, with lists and outputs that are too short or
//! longer than needed.
use crate::inputs::{Random, rigs};
use crate::sides::{ROOM, Sides};
use winnathey::raw;

/// So many words at every rank, random and mostly short; at some ranks one of 4,096 letters.
const WORDS: usize = 24;

/// Up to this length each place below the lowest is asked too.
const SHORT: usize = 60;

/// Of a longer rewriting so many lines are replayed.
const LINES: usize = 20_000;

pub fn replays(sides: &mut Sides) {
    let mut random = Random(2);
    for (kind, rank) in rigs() {
        for at in 0..WORDS {
            let letters = match at {
                0 if rank % 8 == 7 => 4096,
                1 => 300,
                _ => random.below(SHORT + 1),
            };
            let word = random.word(kind, rank, letters);
            one_word(sides, kind, rank, &word);
        }
    }
    refusals(sides);
}

fn one_word(sides: &mut Sides, kind: u32, rank: u32, word: &[u8]) {
    let steps = sides.rewrite_steps(kind, rank, word);
    assert!(steps >= 0, "kind {kind}, rank {rank}: {word:?} is refused");
    let steps = steps as usize;
    let mut form = vec![0; ROOM];
    let length = plain::normal_form_of_word(kind, rank, word, &mut form) as usize;
    form.truncate(length);
    let exact = [steps, steps, steps, length];
    assert_eq!(sides.rewrite_to_end(kind, rank, word, exact), steps as i64);
    replay(sides, kind, rank, word, steps, &form);
    if word.len() > SHORT {
        return;
    }
    assert_eq!(sides.rewrite_to_end(kind, rank, word, exact.map(|room| room + 3)), steps as i64);
    for short in 0..4 {
        let mut room = exact;
        if room[short] > 0 {
            room[short] -= 1;
            assert_eq!(sides.rewrite_to_end(kind, rank, word, room), if short == 3 { -14 } else { -15 });
            // Check 15 comes before check 14.
            let all = room.map(|room| room.saturating_sub(1));
            assert_eq!(sides.rewrite_to_end(kind, rank, word, all), if steps > 0 { -15 } else { -14 });
        }
    }
}

/// The lines that the last call wrote, by single rewrites: of that family, leaving a word of that length, and none at a
/// lower place.
fn replay(sides: &Sides, kind: u32, rank: u32, word: &[u8], steps: usize, form: &[u8]) {
    let (families, places, lengths, last) = sides.lines(steps);
    let mut word = word.to_vec();
    let mut next = vec![0; word.len()];
    let mut rule = [0; 3];
    let ask_lower = word.len() <= SHORT;
    let few = steps <= LINES;
    for step in 0..steps.min(LINES) {
        let place = usize::from(places[step]);
        if ask_lower {
            for lower in 0..place {
                assert_eq!(raw::rewrite(kind, rank, &word, lower, &mut next, &mut rule), raw::NONE_FITS);
            }
        }
        let length = raw::rewrite(kind, rank, &word, place, &mut next, &mut rule);
        assert_eq!(
            (length, rule[0]),
            (i64::from(lengths[step]), families[step]),
            "kind {kind}, rank {rank}, step {step}"
        );
        word.clear();
        word.extend(&next[..length as usize]);
    }
    assert_eq!(last, form, "kind {kind}, rank {rank}: the final word is not the normal form");
    if few {
        assert_eq!(word, form, "kind {kind}, rank {rank}: the lines do not lead to the final word");
    }
    if ask_lower {
        for place in 0..word.len() {
            assert_eq!(raw::rewrite(kind, rank, &word, place, &mut next, &mut rule), raw::NONE_FITS);
        }
    }
}

/// Each check before 15, with lists that are too short as well.
fn refusals(sides: &mut Sides) {
    let too_long = vec![1; 4097];
    for (kind, rank, word, due) in [
        (0, 2, &[1, 1][..], -5),
        (4, 2, &[1, 1], -5),
        (257, 2, &[1, 1], -5),
        (1, 0, &[1, 1], -6),
        (1, 64, &[1, 1], -6),
        (2, 1, &[1, 1], -6),
        (3, 3, &[1, 1], -6),
        (1, 258, &[1, 1], -6),
        (1, 2, &too_long, -7),
        (1, 2, &[1, 0], -8),
        (1, 2, &[3, 1], -8),
        (1, 2, &[1, 1], -15),
        (1, 2, &[2, 1], -14),
    ] {
        assert_eq!(sides.rewrite_to_end(kind, rank, word, [0; 4]), due);
        sides.rewrite_to_end(kind, rank, word, [ROOM; 4]);
        sides.rewrite_steps(kind, rank, word);
    }
}
