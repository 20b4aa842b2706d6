//! The inputs: random words and windows, words made of blocks, normal forms.
use crate::timing::INPUTS;

/// Random numbers with a fixed start.
pub struct Random(pub u64);

impl Random {
    pub fn next(&mut self) -> u64 {
        self.0 = self.0.wrapping_add(0x9e37_79b9_7f4a_7c15);
        let mut z = self.0;
        z = (z ^ (z >> 30)).wrapping_mul(0xbf58_476d_1ce4_e5b9);
        z = (z ^ (z >> 27)).wrapping_mul(0x94d0_49bb_1331_11eb);
        z ^ (z >> 31)
    }

    fn below(&mut self, end: u32) -> u32 {
        (self.next() % u64::from(end)) as u32
    }

    pub fn word(&mut self, rank: u32, letters: usize) -> Vec<u8> {
        (0..letters).map(|_| self.below(rank) as u8 + 1).collect()
    }

    pub fn words(&mut self, rank: u32, letters: usize) -> Vec<Vec<u8>> {
        (0..INPUTS).map(|_| self.word(rank, letters)).collect()
    }

    /// One block, not empty: its first step and how far it goes are random.
    pub fn block(&mut self, kind: u32, rank: u32) -> Vec<u8> {
        let n = rank as u8;
        let i = 1 + self.below(if kind == plain::D { rank - 1 } else { rank }) as u8;
        let j = i + self.below(u32::from(if kind == plain::A { n + 1 - i } else { 2 * n + 1 - 2 * i })) as u8;
        let down = 2 * n - j..n;
        if j < n || kind == plain::A {
            (i..=j).collect()
        } else if kind == plain::B {
            (i..=n).chain(down.rev()).collect()
        } else {
            (i..n - 1).chain([n]).chain(down.rev()).collect()
        }
    }

    /// Words of blocks one after the other, the last of them cut short.
    pub fn block_words(&mut self, kind: u32, rank: u32, letters: usize) -> Vec<Vec<u8>> {
        let mut word = || {
            let mut word = Vec::new();
            while word.len() < letters {
                word.extend(self.block(kind, rank));
            }
            word.truncate(letters);
            word
        };
        (0..INPUTS).map(|_| word()).collect()
    }
}

/// The normal form of each word.
pub fn forms_of(kind: u32, rank: u32, words: &[Vec<u8>]) -> Vec<Vec<u8>> {
    let form_of = |word: &Vec<u8>| {
        let mut form = vec![0; 4096];
        let length = plain::normal_form_of_word(kind, rank, word, &mut form);
        form.truncate(length as usize);
        form
    };
    words.iter().map(form_of).collect()
}

/// The window of each word.
pub fn windows_of(kind: u32, rank: u32, words: &[Vec<u8>]) -> Vec<Vec<i8>> {
    let window_of = |word: &Vec<u8>| {
        let mut window = vec![0; 64];
        let lanes = plain::window_of_word(kind, rank, word, &mut window);
        window.truncate(lanes as usize);
        window
    };
    words.iter().map(window_of).collect()
}
