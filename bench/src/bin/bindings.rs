//! What `bench/bindings` times in C and Rust: a line for each, its name and nanoseconds of the processor, a median.
use std::hint::black_box;
use winnathey::{Book, Edition, Group, Kind, Preset, raw};

unsafe extern "C" {
    fn clock_gettime(clock: i32, time: *mut [i64; 2]) -> i32;
}

/// The time that the processor spent on this program, which other programs do not lengthen, in nanoseconds.
fn processor_time() -> f64 {
    const CLOCK_PROCESS_CPUTIME_ID: i32 = 2;
    let mut time = [0; 2];
    // SAFETY: on 64-bit Linux a time is two numbers of 64 bits, seconds and nanoseconds, and is borrowed alone.
    let answer = unsafe { clock_gettime(CLOCK_PROCESS_CPUTIME_ID, &mut time) };
    assert_eq!(answer, 0);
    time[0] as f64 * 1e9 + time[1] as f64
}

const RUNS: usize = 15;
/// So many presets of three letters fill a book.
const PRESETS: usize = 7281;

/// The median time of one of `calls` calls, over several runs.
fn timed(name: &str, calls: usize, mut call: impl FnMut()) {
    let mut run = || {
        let start = processor_time();
        (0..calls).for_each(|_| call());
        (processor_time() - start) / calls as f64
    };
    run();
    let mut times: Vec<f64> = (0..RUNS).map(|_| run()).collect();
    times.sort_by(f64::total_cmp);
    println!("{name}\t{}", times[RUNS / 2]);
}

fn main() {
    let word: [u8; 16] = std::array::from_fn(|at| 1 + (7 * at as u8 + 3) % 16);
    let group = Group::new(Kind::D, 16).expect("there is D16");
    let window = group.window_of_word(&word).expect("steps of D16");
    let (mut entries, mut letters) = ([0; 64], [0; 4096]);
    let calls = 100_000;
    timed("c window_of_word", calls, || {
        black_box(raw::window_of_word(3, 16, black_box(&word), &mut entries));
    });
    timed("c normal_form_of_word", calls, || {
        black_box(raw::normal_form_of_word(3, 16, black_box(&word), &mut letters));
    });
    timed("c length_of_window", calls, || {
        black_box(raw::length_of_window(3, 16, black_box(&window)));
    });
    timed("rust window_of_word", calls, || {
        black_box(group.window_of_word(black_box(&word)).ok());
    });
    timed("rust normal_form_of_word", calls, || {
        black_box(group.normal_form_of_word(black_box(&word)).ok());
    });
    timed("rust length_of_window", calls, || {
        black_box(group.length_of_window(black_box(&window)).ok());
    });

    let words: Vec<[u8; 3]> = (0..PRESETS).map(|at| [at, at / 5, at / 25].map(|n| 1 + (n % 5) as u8)).collect();
    let presets = || words.iter().map(|word| Preset { kind: Kind::D, rank: 5, word });
    let mut full = Book::new(Edition::First);
    full.append_all(presets()).expect("they have room");
    timed("rust append_all", 5, || {
        let mut book = Book::new(Edition::First);
        book.append_all(black_box(presets())).expect("they have room");
        assert_eq!(book, full);
    });
    let group = Group::new(Kind::D, 5).expect("there is D5");
    timed("rust append_each", 1, || {
        let mut book = Book::new(Edition::First);
        black_box(&words).iter().for_each(|word| book.append(group, word).expect("they have room"));
        assert_eq!(book, full);
    });
    let mut last = full.clone();
    last.remove(PRESETS - 1).expect("it is there");
    timed("rust append_last", 200, || {
        let mut book = black_box(&last).clone();
        book.append(group, &[1, 2, 3]).expect("it has room");
        black_box(&book);
    });
    let mut out = [0; 65535];
    timed("c append_last", 200, || {
        black_box(raw::append(black_box(last.as_bytes()), 3, 5, &[1, 2, 3], &mut out));
    });
}
