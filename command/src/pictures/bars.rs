//! The picture of a delay table, with a scale.
use super::{Font, START, framed, length, put};
use crate::text;
use std::fmt::Write;

const TOP: usize = 76;

/// How the picture is laid out.
struct Look {
    /// The bars take up so many pixels at most and at least, in steps of the least for each.
    bars: (usize, usize),
    bar: usize,
    high: usize,
    /// The margins at the left and the right.
    side: usize,
    end: usize,
    /// The size of the numbers on the scale.
    font: usize,
    /// What a length is.
    length: &'static str,
}

const SCREEN: Look = Look {
    bars: (800, 320),
    bar: 3,
    high: 300,
    side: 24,
    end: 24,
    font: 13,
    length: "length: steps of the normal form",
};
const PAPER: Look = Look {
    bars: (514, 320),
    bar: 2,
    high: 200,
    side: 8,
    end: 13,
    font: 11,
    length: "length: steps of the shortest version",
};
const BLUE: &str = "#0072b2";
const MARKED: &str = "#c0410b";

pub fn picture(rig: &str, counts: &[u64]) -> String {
    drawn(rig, counts, &[], &SCREEN)
}

/// No wider than a page, with some lengths marked.
pub fn on_paper(rig: &str, counts: &[u64], marked: &[usize]) -> String {
    drawn(rig, counts, marked, &PAPER)
}

fn drawn(rig: &str, counts: &[u64], marked: &[usize], look: &Look) -> String {
    let Look { high, side, end, font, .. } = *look;
    let most = counts.iter().copied().max().unwrap_or(1);
    let (step, ticks) = scale(most);
    let left = side + length(&text::grouped(step * ticks), font);
    let bar = (look.bars.0 / counts.len()).clamp(look.bar, 40);
    let wide = left + (counts.len() * bar).max(look.bars.1) + end;
    let height = |count: u64| (u128::from(count) * high as u128).div_ceil(u128::from(step * ticks)) as usize;
    let mut parts = String::new();
    let sum: u64 = counts.iter().sum();
    let head = format!("{rig}: {} windows by length", text::grouped(sum));
    for (number, line) in text::wrapped(&head, wide / 9).iter().enumerate() {
        put(&mut parts, (12, 26 + 20 * number), START, line);
    }
    put(&mut parts, (12, TOP - 14), Font::sized(13, "start").grey(), "windows");
    for tick in 0..=ticks {
        let y = TOP + high - height(step * tick);
        let _ = writeln!(parts, "<path stroke=\"#cccccc\" d=\"M{left} {y}H{}\"/>", wide - end);
        put(&mut parts, (left - 6, y + 4), Font::sized(font, "end"), &text::grouped(step * tick));
    }
    let every = [1, 2, 5, 10, 20, 50].into_iter().find(|every| counts.len() / every <= 20).unwrap_or(50);
    for (length, &count) in counts.iter().enumerate() {
        let (x, tall) = (left + length * bar, height(count));
        let is_marked = marked.contains(&length);
        let _ = writeln!(
            parts,
            "<rect x=\"{x}\" y=\"{}\" width=\"{}\" height=\"{tall}\" fill=\"{}\">\
             <title>length {length}: {}</title></rect>",
            TOP + high - tall,
            bar - 1,
            if is_marked { MARKED } else { BLUE },
            text::grouped(count)
        );
        if length % every == 0 {
            put(&mut parts, (x + bar / 2, TOP + high + 18), Font::sized(13, "middle"), &length.to_string());
        }
        if is_marked {
            put_mark(&mut parts, (x + bar / 2, TOP + high - tall - 3));
        }
    }
    put(&mut parts, (left, TOP + high + 40), Font::sized(13, "start").grey(), look.length);
    framed(wide, TOP + high + 56, &format!("{rig}, windows by length"), &parts)
}

/// A triangle that stands on its point: the colour says nothing alone.
fn put_mark(parts: &mut String, (x, y): (usize, usize)) {
    let _ = writeln!(parts, "<path fill=\"{MARKED}\" d=\"M{x} {y}L{} {}H{}Z\"/>", x - 4, y - 8, x + 4);
}

/// A round number, and how often it goes up to the greatest count: at most five times.
fn scale(most: u64) -> (u64, u64) {
    let mut unit = 1u64;
    loop {
        for round in [1, 2, 5] {
            let step = unit.saturating_mul(round);
            let ticks = most.div_ceil(step);
            if ticks <= 5 {
                return (step, ticks.max(1));
            }
        }
        unit = unit.saturating_mul(10);
    }
}

#[cfg(test)]
mod tests {
    use super::*;

    #[test]
    fn a_scale_has_few_round_steps() {
        assert_eq!(scale(1), (1, 1));
        assert_eq!(scale(8), (2, 4));
        assert_eq!(scale(30), (10, 3));
        assert_eq!(scale(101), (50, 3));
        let (step, ticks) = scale(16_000_000_000_000_000);
        assert!(ticks <= 5 && step * ticks >= 16_000_000_000_000_000);
    }
}
