//! From one window to another over allowed steps: all pairs of windows and all sets of small ranks, each bit of the set at
//! each rank, and random ones of all ranks.
use crate::exhaustive::all_windows;
use crate::expected;
use crate::inputs::{Random, lanes, rigs};
use crate::shortest::RIGS;
use crate::sides::Sides;
use plain::{A, B};

/// One step on a window.
fn act(kind: u32, step: u8, window: &mut [i8]) {
    let (i, m) = (usize::from(step), window.len());
    if i < m {
        window.swap(i - 1, i);
    } else if kind == B {
        window[m - 1] = -window[m - 1];
    } else {
        (window[m - 2], window[m - 1]) = (-window[m - 1], -window[m - 2]);
    }
}

fn is_allowed(allowed: u64, step: u8) -> bool {
    allowed & 1 << (step - 1) != 0
}

/// Answers 19 if there is no word, else with the word, which an output of its length holds and a shorter one does not.
fn held(sides: &mut Sides, kind: u32, rank: u32, allowed: u64, from: &[i8], to: &[i8], due: Option<&[u8]>) {
    let told = || format!("from {from:?} to {to:?} in {kind} {rank} over {allowed:#b}");
    let Some(due) = due else {
        assert_eq!(sides.between(kind, rank, allowed, from, to, 0), -19, "{}", told());
        assert_eq!(sides.between(kind, rank, allowed, from, to, 50), -19, "{}", told());
        return;
    };
    let length = sides.between(kind, rank, allowed, from, to, due.len());
    assert_eq!(length, due.len() as i64, "{}", told());
    assert_eq!(sides.bytes(length), due, "{}", told());
    if !due.is_empty() {
        assert_eq!(sides.between(kind, rank, allowed, from, to, due.len() - 1), -14, "{}", told());
    }
}

/// All pairs of windows and all sets, by the plain version's search through all windows.
pub fn pairs(sides: &mut Sides) {
    for (kind, rank) in RIGS {
        let windows = all_windows(kind, rank);
        for allowed in 0..1 << rank {
            for from in &windows {
                for to in &windows {
                    let mut word = [0; 50];
                    let length = plain::between(kind, rank, allowed, from, to, &mut word);
                    let due = (length != -19).then(|| &word[..length as usize]);
                    held(sides, kind, rank, allowed, from, to, due);
                }
            }
        }
    }
}

/// Each single bit at each rank: it allows its step and no other, and is refused 16 above the rank.
pub fn bits(sides: &mut Sides) {
    for (kind, rank) in rigs() {
        let straight: Vec<i8> = (1..=lanes(kind, rank) as i8).collect();
        for bit in 0..64 {
            let allowed = 1 << bit;
            if bit >= rank {
                for out in [0, 5] {
                    assert_eq!(sides.between(kind, rank, allowed, &straight, &straight, out), -16);
                    assert_eq!(sides.between(kind, rank, allowed | 1, &[], &[0], out), -16);
                }
                continue;
            }
            for step in [1, bit as u8, bit as u8 + 1, rank as u8] {
                let mut shown = straight.clone();
                act(kind, step.max(1), &mut shown);
                let due = [step.max(1)];
                let due = is_allowed(allowed, due[0]).then_some(&due[..]);
                held(sides, kind, rank, allowed, &straight, &shown, due);
            }
        }
        let all = u64::MAX >> (64 - rank);
        let mut longest: Vec<i8> = straight.iter().map(|entry| -entry).collect();
        if kind == A {
            longest = straight.iter().rev().copied().collect();
        } else if kind != B && rank % 2 == 1 {
            longest[rank as usize - 1] = rank as i8;
        }
        for (from, to) in [(&straight, &longest), (&longest, &straight)] {
            sides.each_length(|sides, out| sides.between(kind, rank, all, from, to, out));
            held(sides, kind, rank, all & !(1 << (rank / 2)), from, to, None);
        }
    }
}

/// A set of steps: all, none, most, few, half, or with a bit above the rank.
fn set(random: &mut Random, rank: u32) -> u64 {
    let all = u64::MAX >> (64 - rank.clamp(1, 64));
    match random.below(8) {
        0 => all,
        1 => 0,
        2 | 3 => all & !(1 << random.below(64)),
        4 => all & (random.next() | random.next()),
        5 => all & random.next() & random.next(),
        6 => all & random.next(),
        _ if random.once_in(2) => random.next(),
        _ => (all & random.next()) | 1 << random.below(64),
    }
}

/// Random windows, half of them joined by a word over the allowed steps.
pub fn random(sides: &mut Sides, inputs: u64) {
    let mut random = Random(10);
    for _ in 0..inputs {
        let (kind, rank) = random.any_rig();
        let allowed = set(&mut random, rank & 255);
        let mut from = random.window(kind, rank);
        let mut to = from.clone();
        if random.once_in(3) {
            to = random.window(kind, rank);
        } else if lanes(kind, rank) == to.len() && to.len() >= 2 {
            let letters = random.letters();
            for step in random.word(kind, rank, letters) {
                if step <= 64 && (is_allowed(allowed, step) || random.once_in(200)) {
                    act(kind, step, &mut to);
                }
            }
        }
        if random.once_in(10) {
            random.damage_window(&mut from);
        }
        if random.once_in(10) {
            random.damage_window(&mut to);
        }
        let need = expected::between(kind, rank, allowed, &from, &to, &mut [0; 4096]);
        let out = random.output(need);
        sides.between(kind, rank, allowed, &from, &to, out);
    }
}
