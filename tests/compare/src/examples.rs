//! The examples of the requirement, each held to the value that it gives and not only to the other side.
use crate::sides::{ROOM, Sides};
use plain::{A, B, D};

struct Table<'a>(&'a mut Sides);

impl Table<'_> {
    fn window(&mut self, kind: u32, rank: u32, word: &[u8], due: &[i8]) {
        let answer = self.0.each_length(|sides, out| sides.window_of_word(kind, rank, word, out));
        self.0.window_of_word(kind, rank, word, ROOM);
        assert_eq!(self.0.lanes(answer), due, "window of {kind} {rank} {word:?}");
    }

    fn form(&mut self, kind: u32, rank: u32, word: &[u8], due: &[u8]) {
        let answer = self.0.each_length(|sides, out| sides.normal_form_of_word(kind, rank, word, out));
        self.0.normal_form_of_word(kind, rank, word, ROOM);
        assert_eq!(self.0.bytes(answer), due, "normal form of {kind} {rank} {word:?}");
        assert_eq!(self.0.length_of_word(kind, rank, word), due.len() as i64);
        // The same by the window.
        self.0.window_of_word(kind, rank, word, 64);
        let lanes = self.0.window_of_word(kind, rank, word, 64);
        let window = self.0.lanes(lanes).to_vec();
        let answer = self.0.normal_form_of_window(kind, rank, &window, ROOM);
        assert_eq!(self.0.bytes(answer), due);
        assert_eq!(self.0.length_of_window(kind, rank, &window), due.len() as i64);
    }

    fn rewrite(&mut self, kind: u32, rank: u32, word: &[u8], place: usize, due: Option<([u8; 3], &[u8])>) {
        for rule in [0, 2, 3, 4] {
            self.0.each_length(|sides, out| sides.rewrite(kind, rank, word, place, out, rule));
        }
        let answer = self.0.rewrite(kind, rank, word, place, ROOM, 3);
        match due {
            Some((rule, new)) => {
                assert_eq!(self.0.bytes(answer), new, "rewrite of {kind} {rank} {word:?} at {place}");
                assert_eq!(self.0.rule(), rule);
            }
            None => assert_eq!(answer, plain::NONE_FITS),
        }
    }
}

pub fn run(sides: &mut Sides) {
    let mut table = Table(sides);
    table.window(A, 2, &[1, 2, 1], &[3, 2, 1]);
    table.form(A, 2, &[1, 2, 1], &[2, 1, 2]);
    table.form(A, 3, &[1, 3], &[3, 1]);
    for (kind, rank) in crate::inputs::rigs() {
        table.form(kind, rank, &[1, 1], &[]);
        table.form(kind, rank, &[], &[]);
        let straight: Vec<i8> = (1..=crate::inputs::lanes(kind, rank) as i8).collect();
        table.window(kind, rank, &[], &straight);
        table.window(kind, rank, &[1, 1], &straight);
    }
    table.window(B, 2, &[1, 2, 1, 2], &[-1, -2]);
    table.form(B, 2, &[1, 2, 1, 2], &[2, 1, 2, 1]);
    table.form(D, 5, &[5, 2, 3, 5, 1, 2], &[5, 2, 3, 5, 1, 2]);
    table.window(D, 5, &[5, 2, 3, 5, 1, 2], &[3, -5, 1, 4, -2]);
    table.rewrite(D, 4, &[3, 4], 0, Some(([2, 3, 4], &[4, 3])));
    table.rewrite(B, 4, &[3, 4], 0, None);
    table.rewrite(B, 4, &[2, 4], 0, Some(([2, 2, 4], &[4, 2])));
    table.rewrite(D, 4, &[2, 4], 0, None);
    // Positions are exchanged, not values.
    table.window(A, 2, &[1, 2], &[2, 3, 1]);
    // The last step alone has length 1.
    table.form(B, 4, &[4], &[4]);
    table.form(D, 4, &[4], &[4]);

    let d5 = [3, -5, 1, 4, -2];
    let answer = sides.inverse_of_window(D, 5, &d5, 5);
    assert_eq!(sides.lanes(answer), d5);
    let answer = sides.inverse_of_word(D, 5, &[5, 2, 3, 5, 1, 2], ROOM);
    assert_eq!(sides.bytes(answer), [5, 2, 3, 5, 1, 2]);
    assert_eq!(plain::rules(D, 4).count(), 16);

    let due = |answer: i64, due: i64| assert_eq!(answer, due);
    due(sides.length_of_window(D, 4, &[-1, 2, 3, 4]), -11);
    due(sides.length_of_window(D, 4, &[-1, -2, 3, 4]), 10);
    due(sides.length_of_window(B, 2, &[-128, 2]), -10);
    due(sides.length_of_word(A, 63, &[]), 0);
    due(sides.length_of_word(A, 64, &[]), -6);
    due(sides.length_of_word(A, 1, &[1; 4096]), 0);
    due(sides.length_of_word(A, 1, &[1; 4097]), -7);
    for (kind, rank) in crate::inputs::rigs() {
        due(sides.length_of_word(kind, rank, &[rank as u8]), 1);
        due(sides.length_of_word(kind, rank, &[rank as u8 + 1]), -8);
        due(sides.length_of_word(kind, rank, &[0]), -8);
        // The greatest length.
        let m = crate::inputs::lanes(kind, rank) as i8;
        let n = i64::from(rank);
        let (window, longest): (Vec<i8>, i64) = match kind {
            A => ((1..=m).rev().collect(), n * (n + 1) / 2),
            B => ((1..=m).map(|entry| -entry).collect(), n * n),
            _ => ((1..=m).map(|entry| if entry == m && m % 2 == 1 { entry } else { -entry }).collect(), n * (n - 1)),
        };
        due(sides.length_of_window(kind, rank, &window), longest);
        due(sides.each_length(|sides, out| sides.normal_form_of_window(kind, rank, &window, out)), longest);
        // It is accepted again as a word, also B64's, which has as many letters as a word may have.
        sides.normal_form_of_window(kind, rank, &window, ROOM);
        let form = sides.bytes(longest).to_vec();
        due(sides.normal_form_of_word(kind, rank, &form, ROOM), longest);
        assert_eq!(sides.bytes(longest), form);
    }
    due(sides.same((A, 2, &[1, 2, 1]), (A, 2, &[2, 1, 2])), 1);
    due(sides.same((A, 2, &[1]), (A, 2, &[2])), 0);
    due(sides.same((B, 4, &[]), (D, 4, &[])), 1);
    due(sides.same((B, 4, &[]), (B, 5, &[])), 0);
    due(sides.same((A, 4, &[]), (B, 4, &[])), 0);
    due(sides.same((A, 3, &[1, 2]), (B, 4, &[1, 2])), 1);
    // Both show -1 -2 3 4; they are normal forms, and different words.
    due(sides.same((B, 4, &[2, 3, 4, 3, 2, 1, 2, 3, 4, 3, 2, 1]), (D, 4, &[2, 4, 3, 2, 1, 2, 4, 3, 2, 1])), 1);
    due(sides.better(A, 2, &[1, 2, 1], &[2, 1, 2]), 2);
    due(sides.better(A, 2, &[2, 1, 2], &[1, 2, 1]), 1);
    due(sides.better(A, 2, &[1, 2, 1], &[1, 2, 1]), 1);
    due(sides.better(A, 2, &[1, 1], &[]), 2);
    due(sides.better(A, 2, &[], &[1, 1]), 1);
    due(sides.better(A, 2, &[], &[]), 1);
    due(sides.better(A, 2, &[1], &[2]), 0);
    due(sides.better(A, 2, &[1], &[3]), 0);
    due(sides.better(A, 64, &[1], &[1]), 0);
}
