//! Windows of presets and windows that have passed their checks.
use crate::{A, B, MAX_LANES, lanes};

/// A window by value.
pub(crate) struct Window {
    entries: [i8; MAX_LANES],
    lanes: usize,
}

impl Window {
    pub(crate) fn straight(lanes: usize) -> Window {
        Window { entries: std::array::from_fn(|at| at as i8 + 1), lanes }
    }

    pub(crate) fn from(window: &[i8]) -> Window {
        let mut entries = [0; MAX_LANES];
        entries[..window.len()].copy_from_slice(window);
        Window { entries, lanes: window.len() }
    }

    pub(crate) fn entries(&self) -> &[i8] {
        &self.entries[..self.lanes]
    }

    pub(crate) fn entries_mut(&mut self) -> &mut [i8] {
        &mut self.entries[..self.lanes]
    }

    /// Applies the word from the left: its steps exchange and negate by position.
    pub(crate) fn apply(&mut self, kind: u32, word: &[u8]) {
        let w = self.entries_mut();
        let n = w.len();
        match kind {
            A => {
                for &step in word {
                    w.swap(step as usize - 1, step as usize);
                }
            }
            B => {
                for &step in word {
                    let i = step as usize;
                    if i < n {
                        w.swap(i - 1, i);
                    } else {
                        w[n - 1] = -w[n - 1];
                    }
                }
            }
            _ => {
                for &step in word {
                    let i = step as usize;
                    if i < n {
                        w.swap(i - 1, i);
                    } else {
                        (w[n - 2], w[n - 1]) = (-w[n - 1], -w[n - 2]);
                    }
                }
            }
        }
    }
}

/// Whether two checked presets have as many lanes and one window.
pub(crate) fn alike(first: (u32, u8, &[u8]), second: (u32, u8, &[u8])) -> bool {
    let m = lanes(first.0, first.1);
    if m != lanes(second.0, second.1) {
        return false;
    }
    let mut u = Window::straight(m);
    u.apply(first.0, first.2);
    let mut v = Window::straight(m);
    v.apply(second.0, second.2);
    u.entries() == v.entries()
}

/// The entry at i is u(v(i)), with u(-i) = -u(i).
pub(crate) fn product_into(u: &[i8], v: &[i8], out: &mut [i8]) {
    for (out, &at) in out.iter_mut().zip(v) {
        let entry = u[at.unsigned_abs() as usize - 1];
        *out = if at < 0 { -entry } else { entry };
    }
}

pub(crate) fn inverse_into(w: &[i8], out: &mut [i8]) {
    for (at, &entry) in (1i8..).zip(w) {
        out[entry.unsigned_abs() as usize - 1] = if entry < 0 { -at } else { at };
    }
}

/// An entry's place in the order 1, 2, .., m, -m, .., -2, -1: that of the bytes without sign.
fn place(entry: i8) -> u8 {
    entry as u8
}

/// The three sums, each for itself, with 0 for one that the kind lacks.
pub(crate) fn crossings(kind: u32, w: &[i8]) -> [usize; 3] {
    let (mut plain, mut against) = (0, 0);
    let mut rest = w;
    while let [first, later @ ..] = rest {
        let first = place(*first);
        // A row counts at most one for each entry behind it, so it fits in a byte.
        let row: u8 = later.iter().map(|&second| u8::from(first > place(second))).sum();
        plain += usize::from(row);
        if kind != A {
            let row: u8 = later.iter().map(|&second| u8::from(first > place(-second))).sum();
            against += usize::from(row);
        }
        rest = later;
    }
    let mirrored = if kind == B { w.iter().filter(|&&entry| entry < 0).count() } else { 0 };
    [plain, against, mirrored]
}

/// The total of the three sums.
pub(crate) fn length(kind: u32, w: &[i8]) -> usize {
    let mut sum = 0;
    let mut rest = w;
    // A row counts at most two for each of 63 entries, so it fits in a byte.
    while let [first, later @ ..] = rest {
        let first = place(*first);
        let row: u8 = if kind == A {
            later.iter().map(|&second| u8::from(first > place(second))).sum()
        } else {
            later.iter().map(|&second| u8::from(first > place(second)) + u8::from(first > place(-second))).sum()
        };
        sum += usize::from(row);
        rest = later;
    }
    if kind == B {
        sum += w.iter().filter(|&&entry| entry < 0).count();
    }
    sum
}
