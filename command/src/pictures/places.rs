//! Where the screens stand in the cabin, in thousandths of its width and height, and which of them cover others: as the page has it.
use crate::names::{Names, Place};
use crate::subcommands::numbered;

const CABIN: usize = 1000;
/// A grid of so many columns has cells that are just large enough.
const FINEST: usize = 32;
/// A screen counts as hidden if no open part of it has a quarter of its area, or is so wide and high.
const ENOUGH: (usize, usize) = (100, 80);
/// So many screens are listed, in so many sentences.
const MOST_LISTED: usize = 8;
const MOST_SENTENCES: usize = 3;

/// The places of the screens from 1 on. One without a place stands in a grid, or beside it if others are there.
pub fn all(names: &Names, lanes: usize) -> Vec<Place> {
    let kept: Vec<Option<Place>> = (1..=lanes).map(|lane| names.place(lane)).collect();
    let mut places: Vec<Place> = (0..lanes).map(|at| kept[at].unwrap_or_else(|| in_grid(at, lanes))).collect();
    let is_covered =
        |at: &usize| kept[*at].is_none() && kept.iter().flatten().any(|place| overlap(place, &places[*at]));
    let covered: Vec<usize> = (0..lanes).filter(is_covered).collect();
    let taken: Vec<Place> = (0..lanes).filter(|at| !covered.contains(at)).map(|at| places[at]).collect();
    for (at, place) in covered.iter().zip(free(covered.len(), &taken, columns(lanes))) {
        places[*at] = place;
    }
    places
}

/// The numbers of the screens from 0, that of the largest first: smaller ones stand in front.
pub fn largest_first(places: &[Place]) -> Vec<usize> {
    let mut order: Vec<usize> = (0..places.len()).collect();
    order.sort_by_key(|at| std::cmp::Reverse(area(&places[*at])));
    order
}

/// The screens that are drawn over each one, all from 0.
pub fn in_front(places: &[Place]) -> Vec<Vec<usize>> {
    let order = largest_first(places);
    let mut front = vec![Vec::new(); places.len()];
    for (depth, at) in order.iter().enumerate() {
        front[*at] =
            order[depth + 1..].iter().copied().filter(|other| overlap(&places[*at], &places[*other])).collect();
        front[*at].sort_unstable();
    }
    front
}

/// The rectangles of a place that no other covers, each as large as it can be. They may overlap one another.
pub fn open_parts(place: Place, others: impl Iterator<Item = Place>) -> Vec<Place> {
    others.fold(vec![place], |parts, other| without(&parts, &other))
}

/// Which screens have no place of their own, and which are hidden behind others, in sentences; empty if there are none.
pub fn notes(names: &Names, places: &[Place]) -> String {
    let sentences: Vec<String> = [unplaced(names, places), hidden(names, places)].concat();
    sentences.join(" ")
}

/// As many columns as it takes to have no more rows than columns.
fn columns(lanes: usize) -> usize {
    (1..=lanes).find(|side| side * side >= lanes).unwrap_or(1)
}

/// A cell of a grid, with a gap around it; the column is given twice, as it may begin with half of one.
fn cell(twice_column: usize, row: usize, columns: usize, rows: usize, gap: usize) -> Place {
    let line = |twice: usize, parts: usize| (twice * CABIN + parts) / (2 * parts);
    let span = |twice: usize, parts: usize| {
        let start = line(twice, parts) + gap / 2;
        (start, line(twice + 2, parts) - gap / 2 - start)
    };
    let ((left, wide), (top, high)) = (span(twice_column, columns), span(2 * row, rows));
    Place { left, top, wide, high }
}

/// The place of a screen in a grid that holds all lanes, with the last row in the middle.
fn in_grid(at: usize, lanes: usize) -> Place {
    let columns = columns(lanes);
    let row = at / columns;
    let in_row = columns.min(lanes - row * columns);
    let gap = if lanes > 16 { 8 } else { 24 };
    cell(2 * (at % columns) + columns - in_row, row, columns, lanes.div_ceil(columns), gap)
}

/// So many places that overlap none of those taken, in the coarsest grid that has them; none where no grid has.
fn free(count: usize, taken: &[Place], columns: usize) -> Vec<Place> {
    let of = |parts: usize| {
        let cells = (0..parts * parts).map(|at| cell(2 * (at % parts), at / parts, parts, parts, 8));
        cells.filter(|place| !taken.iter().any(|other| overlap(place, other))).take(count).collect::<Vec<Place>>()
    };
    (columns..=FINEST).map(of).find(|places| places.len() == count).unwrap_or_default()
}

fn area(place: &Place) -> usize {
    place.wide * place.high
}

fn overlap(one: &Place, two: &Place) -> bool {
    one.left < two.left + two.wide
        && two.left < one.left + one.wide
        && one.top < two.top + two.high
        && two.top < one.top + one.high
}

fn holds(one: &Place, two: &Place) -> bool {
    one.left <= two.left
        && one.top <= two.top
        && one.left + one.wide >= two.left + two.wide
        && one.top + one.high >= two.top + two.high
}

/// What is left of rectangles when another is cut out: of each up to four, and none that another holds.
fn without(parts: &[Place], other: &Place) -> Vec<Place> {
    let all: Vec<Place> = parts.iter().flat_map(|part| cut(part, other)).collect();
    // Of two that are equal the first stays.
    let is_held = |at: usize, one: &Place| {
        all.iter().enumerate().any(|(before, two)| before != at && holds(two, one) && (before < at || !holds(one, two)))
    };
    all.iter().enumerate().filter(|(at, one)| !is_held(*at, one)).map(|(_, one)| *one).collect()
}

fn cut(part: &Place, other: &Place) -> Vec<Place> {
    if !overlap(part, other) {
        return vec![*part];
    }
    let (right, bottom) = (other.left + other.wide, other.top + other.high);
    let sides = [
        Place { wide: other.left.saturating_sub(part.left), ..*part },
        Place { left: right, wide: (part.left + part.wide).saturating_sub(right), ..*part },
        Place { high: other.top.saturating_sub(part.top), ..*part },
        Place { top: bottom, high: (part.top + part.high).saturating_sub(bottom), ..*part },
    ];
    sides.into_iter().filter(|side| area(side) > 0).collect()
}

/// Screens that are hidden alike: behind the same ones, wholly or mostly. All from 0.
struct Hidden {
    screens: Vec<usize>,
    behind: Vec<usize>,
    wholly: bool,
}

fn hidden_groups(places: &[Place]) -> Vec<Hidden> {
    let mut groups: Vec<Hidden> = Vec::new();
    for (at, behind) in in_front(places).into_iter().enumerate() {
        let open = open_parts(places[at], behind.iter().map(|other| places[*other]));
        let is_enough =
            |part: &Place| 4 * area(part) >= area(&places[at]) || (part.wide >= ENOUGH.0 && part.high >= ENOUGH.1);
        if open.iter().any(is_enough) {
            continue;
        }
        let wholly = open.is_empty();
        match groups.iter_mut().find(|group| group.behind == behind && group.wholly == wholly) {
            Some(group) => group.screens.push(at),
            None => groups.push(Hidden { screens: vec![at], behind, wholly }),
        }
    }
    groups
}

fn hidden(names: &Names, places: &[Place]) -> Vec<String> {
    let groups = hidden_groups(places);
    let told = |Hidden { screens, behind, wholly }: &Hidden| {
        let mostly = if *wholly { "" } else { "mostly " };
        format!("{} {mostly}hidden behind {}.", begun(names, screens, "is", "are"), listed(names, behind))
    };
    let mut sentences: Vec<String> = groups.iter().take(MOST_SENTENCES).map(told).collect();
    match groups.iter().skip(MOST_SENTENCES).map(|group| group.screens.len()).sum() {
        0 => {}
        1 => sentences.push("1 more is hidden too.".to_string()),
        more => sentences.push(format!("{more} more are hidden too.")),
    }
    sentences
}

/// Where the screens stand that have no place, beside others that have one.
fn unplaced(names: &Names, places: &[Place]) -> Vec<String> {
    let (open, arranged): (Vec<usize>, Vec<usize>) = (0..places.len()).partition(|at| names.place(at + 1).is_none());
    if arranged.is_empty() {
        return Vec::new();
    }
    let over = |at: usize| arranged.iter().copied().filter(move |other| overlap(&places[at], &places[*other]));
    let (crowded, free): (Vec<usize>, Vec<usize>) = open.into_iter().partition(|at| over(*at).next().is_some());
    let mut sentences = Vec::new();
    if !free.is_empty() {
        let stands = begun(names, &free, "has no place yet and stands", "have no place yet and stand");
        sentences.push(format!("{stands} where there is room."));
    }
    if !crowded.is_empty() {
        let mut others: Vec<usize> = crowded.iter().flat_map(|at| over(*at)).collect();
        others.sort_unstable();
        others.dedup();
        let front = in_front(places);
        let is_before = crowded.iter().all(|at| over(*at).all(|other| front[other].contains(at)));
        let (one, many) = match is_before {
            true => ("it stands in front of", "they stand in front of"),
            false => ("it overlaps", "they overlap"),
        };
        let no_room = |have: &str, does: &str| format!("{have} no place yet, and there is no room: {does}");
        let first = begun(names, &crowded, &no_room("has", one), &no_room("have", many));
        sentences.push(format!("{first} {}.", listed(names, &others)));
    }
    sentences
}

/// The front of a sentence about screens: 'Screen 4 left mirror is'.
fn begun(names: &Names, screens: &[usize], one: &str, many: &str) -> String {
    let text = listed(names, screens).replacen('s', "S", 1);
    format!("{text} {}", if screens.len() == 1 { one } else { many })
}

/// 'screen 4 left mirror', 'screens 2, 3 and 4'.
fn listed(names: &Names, screens: &[usize]) -> String {
    let few = if screens.len() > MOST_LISTED { MOST_LISTED - 1 } else { screens.len() };
    let mut texts: Vec<String> = screens[..few].iter().map(|at| numbered(at + 1, names.screen(at + 1))).collect();
    if few < screens.len() {
        texts.push(format!("{} more", screens.len() - few));
    }
    let last = texts.pop().unwrap_or_default();
    let joined = if texts.is_empty() { last } else { format!("{} and {last}", texts.join(", ")) };
    format!("screen{} {joined}", if screens.len() == 1 { "" } else { "s" })
}

#[cfg(test)]
mod tests {
    use super::*;

    fn told(lines: &str, lanes: usize) -> String {
        let names = Names::parse(lines.as_bytes()).unwrap();
        notes(&names, &all(&names, lanes))
    }

    #[test]
    fn screens_without_a_place_stand_apart() {
        for lanes in 1..=64 {
            let places = all(&Names::default(), lanes);
            assert!(in_front(&places).iter().all(Vec::is_empty), "{lanes}");
            assert!(places.iter().all(|place| place.left + place.wide <= CABIN && place.top + place.high <= CABIN));
        }
        assert_eq!(in_grid(4, 5), Place { left: 512, top: 512, wide: 309, high: 476 });
        assert_eq!(
            told("place 1 0 0 400 400\nscreen 2 door\n", 2),
            "Screen 2 door has no place yet and stands where there is room."
        );
        assert_eq!(
            told("place 1 0 0 1000 1000\n", 3),
            "Screens 2 and 3 have no place yet, and there is no room: they stand in front of screen 1."
        );
        assert_eq!(told("", 5), "");
    }

    #[test]
    fn hidden_screens_are_told() {
        let two = "place 1 100 100 300 300\nplace 2 100 100 300 300\n";
        assert_eq!(told(&format!("{two}screen 1 door\n"), 2), "Screen 1 door is hidden behind screen 2.");
        let most = "place 1 100 100 300 300\nplace 2 90 90 280 320\n";
        assert_eq!(told(most, 2), "Screen 1 is mostly hidden behind screen 2.");
        assert_eq!(told("place 1 0 0 900 900\nplace 2 100 100 300 300\n", 2), "");
    }
}
