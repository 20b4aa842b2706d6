//! Random inputs with a fixed start, right ones and damaged ones.

pub const KINDS: [u32; 3] = [plain::A, plain::B, plain::D];

/// What a kind or a rank can be raised by so that, cut to fewer bits, it would be itself again.
pub const RAISED: [u32; 6] = [1 << 8, 1 << 16, 1 << 24, 1 << 31, 0xffff_ff00, 0xffff_0000];

/// The ranks of a kind.
pub fn ranks(kind: u32) -> std::ops::RangeInclusive<u32> {
    match kind {
        plain::A => 1..=63,
        plain::B => 2..=64,
        _ => 4..=64,
    }
}

/// Every kind with every rank of its range.
pub fn rigs() -> impl Iterator<Item = (u32, u32)> {
    KINDS.into_iter().flat_map(|kind| ranks(kind).map(move |rank| (kind, rank)))
}

pub fn lanes(kind: u32, rank: u32) -> usize {
    rank as usize + usize::from(kind == plain::A)
}

pub struct Random(pub u64);

impl Random {
    pub fn next(&mut self) -> u64 {
        self.0 = self.0.wrapping_add(0x9e37_79b9_7f4a_7c15);
        let mut z = self.0;
        z = (z ^ (z >> 30)).wrapping_mul(0xbf58_476d_1ce4_e5b9);
        z = (z ^ (z >> 27)).wrapping_mul(0x94d0_49bb_1331_11eb);
        z ^ (z >> 31)
    }

    /// A number below n.
    pub fn below(&mut self, n: usize) -> usize {
        (self.next() % n.max(1) as u64) as usize
    }

    pub fn byte(&mut self) -> u8 {
        self.next() as u8
    }

    /// True once in n times.
    pub fn once_in(&mut self, n: usize) -> bool {
        self.below(n) == 0
    }

    pub fn pick<T: Copy>(&mut self, from: &[T]) -> T {
        from[self.below(from.len())]
    }

    /// A kind and a rank in its range.
    pub fn rig(&mut self) -> (u32, u32) {
        let kind = self.pick(&KINDS);
        let ranks = ranks(kind);
        let count = (ranks.end() - ranks.start()) as usize + 1;
        // Small ranks, where words meet each other often, come as often as all others.
        let at = if self.once_in(2) { self.below(4) } else { self.below(count) };
        (kind, ranks.start() + at as u32)
    }

    /// A kind and a rank, now and then a wrong byte.
    pub fn byte_rig(&mut self) -> (u32, u32) {
        let (kind, rank) = self.rig();
        match self.below(20) {
            0 => (self.byte().into(), rank),
            1 => (kind, self.byte().into()),
            2 => (kind, self.pick(&[0, 1, 2, 3, 4, 31, 32, 33, 63, 64, 65, 255])),
            _ => (kind, rank),
        }
    }

    /// A kind and a rank, now and then a wrong number, which may be no byte.
    pub fn any_rig(&mut self) -> (u32, u32) {
        let (kind, rank) = self.byte_rig();
        match self.below(40) {
            0 => (kind + self.pick(&RAISED), rank),
            1 => (kind, rank + self.pick(&RAISED)),
            2 => (kind + self.pick(&RAISED), rank + self.pick(&RAISED)),
            3 => (self.pick(&[kind, u32::MAX]), self.pick(&[rank, u32::MAX])),
            4 => (kind, self.next() as u32),
            _ => (kind, rank),
        }
    }

    /// How many letters: mostly few, now and then very many.
    pub fn letters(&mut self) -> usize {
        match self.below(100) {
            0 => self.below(4097),
            1 => 4090 + self.below(12),
            2..=16 => self.below(300),
            17..=50 => self.below(60),
            _ => self.below(16),
        }
    }

    /// A word over the steps 1 to rank, of one of several makes. A kind or rank that is no byte counts as its lowest
    /// byte here and in `window`, so that a call which cut them would accept.
    pub fn word(&mut self, kind: u32, rank: u32, letters: usize) -> Vec<u8> {
        let (kind, n) = (kind & 255, (rank & 255).max(1) as usize);
        let make = self.below(4);
        let mut word = Vec::with_capacity(letters + 70);
        match make {
            0 | 1 => word.extend((0..letters).map(|_| (self.below(n) + 1) as u8)),
            // Steps that keep close to each other.
            2 => {
                let mut step = self.below(n) as i64;
                for _ in 0..letters {
                    word.push(step as u8 + 1);
                    step = (step + self.below(3) as i64 - 1).clamp(0, n as i64 - 1);
                }
            }
            // Ways up and down, as in blocks, with a letter in between.
            _ => {
                while word.len() < letters {
                    let i = self.below(n) + 1;
                    let top = i + self.below(n + 1 - i);
                    word.extend((i..=top).map(|step| step as u8));
                    if self.once_in(2) {
                        let down = i + self.below(top + 1 - i);
                        if kind == plain::D && top == n && n > 2 {
                            // In D the way up leaves out step n - 1.
                            if let Some(at) = word.iter().rposition(|&step| usize::from(step) == n - 1) {
                                word.remove(at);
                            }
                        }
                        word.extend((down..top).rev().map(|step| step as u8));
                    }
                    word.push(self.pick(&[i, (i + 1).min(n), n, n.max(2) - 1]) as u8);
                }
                word.truncate(letters);
            }
        }
        word
    }

    /// Now and then a letter out of range, or a word too long.
    pub fn damage_word(&mut self, rank: u32, word: &mut Vec<u8>) {
        if self.once_in(8) && !word.is_empty() {
            let at = match self.below(3) {
                0 => 0,
                1 => word.len() - 1,
                _ => self.below(word.len()),
            };
            word[at] = match self.below(3) {
                0 => 0,
                1 => rank.wrapping_add(1) as u8,
                _ => self.byte(),
            };
        }
        if self.once_in(300) {
            word.resize(4097 + self.below(3), 1);
        }
    }

    /// A window of a kind and rank.
    pub fn window(&mut self, kind: u32, rank: u32) -> Vec<i8> {
        let kind = kind & 255;
        let m = lanes(kind, (rank & 255).min(126));
        let mut window: Vec<i8> = (1..=m as i8).collect();
        for at in (1..m).rev() {
            let other = self.below(at + 1);
            window.swap(at, other);
        }
        if kind != plain::A {
            for entry in &mut window {
                if self.once_in(2) {
                    *entry = -*entry;
                }
            }
            if kind == plain::D && window.iter().filter(|&&entry| entry < 0).count() % 2 == 1 {
                let at = self.below(m);
                window[at] = -window[at];
            }
        }
        window
    }

    /// Now and then a wrong entry, a wrong sign or a wrong length.
    pub fn damage_window(&mut self, window: &mut Vec<i8>) {
        if !self.once_in(4) || window.is_empty() {
            return;
        }
        let at = self.below(window.len());
        let m = window.len() as i8;
        match self.below(8) {
            0 => window[at] = 0,
            1 => window[at] = -128,
            2 => window[at] = self.pick(&[m.wrapping_add(1), -m.wrapping_add(1), 127, -127]),
            3 => window[at] = self.byte() as i8,
            4 => window[at] = window[self.below(window.len())],
            5 => window[at] = window[at].wrapping_neg(),
            6 => {
                window.pop();
            }
            _ => window.push(m.wrapping_add(1)),
        }
    }

    /// A length for an output whose answer needs so many elements.
    pub fn output(&mut self, need: i64) -> usize {
        let need = need.max(0) as usize;
        match self.below(8) {
            0 => 0,
            1 => need.saturating_sub(1),
            2 => need + 1,
            3 => self.below(need + 1),
            4 => need + self.below(100),
            _ => need,
        }
    }
}
