//! Lists for numbers of every length: too short, empty, just long enough, longer. A list that is too short is refused 14
//! wherever the call is accepted with a longer one, and every other refusal stays.
use crate::sides::{ROOM, Sides};

/// Right kinds and ranks, the highest among them, and wrong ones.
const RIGS: [(u32, u32); 14] = [
    (1, 1),
    (1, 3),
    (2, 2),
    (2, 3),
    (3, 4),
    (3, 5),
    (1, 63),
    (2, 64),
    (3, 64),
    (0, 3),
    (1, 64),
    (3, 3),
    (258, 2),
    (2, 258),
];

/// Words of a rank, one whose normal form is empty after a step among them, and wrong ones.
fn words(rank: u32) -> Vec<Vec<u8>> {
    let n = rank as u8;
    let mut words = vec![vec![], vec![1], vec![1, 1], vec![n, n.saturating_sub(1).max(1), n], vec![n; 5]];
    words.extend([vec![0], vec![1, n.wrapping_add(1)], vec![1; 4097]]);
    words
}

pub fn run(sides: &mut Sides) {
    for (kind, rank) in RIGS {
        tables(sides, kind, rank);
        for word in words(rank) {
            for list in 0..=5 {
                let due = |answer: i64, need: usize| if answer >= 0 && list < need { -14 } else { answer };
                crossings(sides, kind, rank, &word, list, due);
                rewritings(sides, kind, rank, &word, list, due);
                splits(sides, kind, rank, &word, list, due);
            }
        }
    }
}

fn crossings(sides: &mut Sides, kind: u32, rank: u32, word: &[u8], list: usize, due: impl Fn(i64, usize) -> i64) {
    let answer = sides.crossings_of_word(kind, rank, word);
    assert_eq!(sides.crossings_of_word_into(kind, rank, word, list), due(answer, 3));
    let mut window = [0; ROOM];
    let lanes = plain::window_of_word(kind, rank, word, &mut window).max(0) as usize;
    let answer = sides.crossings_of_window(kind, rank, &window[..lanes]);
    assert_eq!(sides.crossings_of_window_into(kind, rank, &window[..lanes], list), due(answer, 3));
}

fn rewritings(sides: &mut Sides, kind: u32, rank: u32, word: &[u8], list: usize, due: impl Fn(i64, usize) -> i64) {
    let steps = plain::rewrite_steps(kind, rank, word).max(0) as usize;
    let length = plain::length_of_word(kind, rank, word).max(0) as usize;
    let exact = [steps, steps, steps, length];
    let mut rooms = vec![exact, exact.map(|room| room + 2), [0; 4]];
    for short in 0..4 {
        rooms.push(std::array::from_fn(|at| if at == short { exact[at].saturating_sub(1) } else { exact[at] }));
    }
    for room in rooms {
        let answer = sides.rewrite_to_end(kind, rank, word, room);
        assert_eq!(sides.rewrite_to_end_into(kind, rank, word, room, list), due(answer, 1));
    }
}

fn splits(sides: &mut Sides, kind: u32, rank: u32, word: &[u8], list: usize, due: impl Fn(i64, usize) -> i64) {
    for allowed in [0, 1, 2, 3, 1 << 63, u64::MAX] {
        sides.split(kind, rank, allowed, word, ROOM, ROOM);
        let (first, second) = sides.halves();
        let (a, b) = (first.len(), second.len());
        for room in [[ROOM; 2], [a, b], [a.saturating_sub(1), b], [a, b.saturating_sub(1)], [0; 2]] {
            let answer = sides.split(kind, rank, allowed, word, room[0], room[1]);
            assert_eq!(sides.split_into(kind, rank, allowed, word, room, list), due(answer, 2));
        }
    }
}

fn tables(sides: &mut Sides, kind: u32, rank: u32) {
    for rank in [rank, rank.min(19), rank.min(16)] {
        for list in 0..=5 {
            for room in [[ROOM; 3], [0; 3], [ROOM, ROOM, 0], [ROOM, 0, ROOM], [0, ROOM, ROOM]] {
                let answer = sides.delay_table(kind, rank, room[0], room[1], room[2]);
                let due = if answer >= 0 && list < 3 { -14 } else { answer };
                assert_eq!(sides.delay_table_into(kind, rank, room, list), due);
            }
        }
    }
}
