//! What somebody may have meant.

/// The name nearest to what was typed, if it is near.
pub fn nearest<'a>(typed: &str, names: impl Iterator<Item = &'a str>) -> Option<&'a str> {
    let typed = typed.to_lowercase();
    let most = ((typed.chars().count() + 1) / 3).max(1);
    let near = names.map(|name| (distance(&typed, name), name)).filter(|(distance, _)| *distance <= most);
    near.min_by_key(|(distance, _)| *distance).map(|(_, name)| name)
}

/// `; did you mean 'show'?`, or nothing.
pub fn question<'a>(typed: &str, names: impl Iterator<Item = &'a str>) -> String {
    nearest(typed, names).map_or(String::new(), |name| format!("; did you mean '{name}'?"))
}

/// How many letters have to be put in, taken out or changed; two neighbours that change places count once.
fn distance(from: &str, to: &str) -> usize {
    let (from, to): (Vec<char>, Vec<char>) = (from.chars().collect(), to.chars().collect());
    let mut rows: Vec<Vec<usize>> = vec![(0..=to.len()).collect()];
    for i in 0..from.len() {
        let mut row = vec![i + 1];
        for j in 0..to.len() {
            let changed = rows[i][j] + usize::from(from[i] != to[j]);
            let mut least = changed.min(rows[i][j + 1] + 1).min(row[j] + 1);
            if i > 0 && j > 0 && from[i] == to[j - 1] && from[i - 1] == to[j] {
                least = least.min(rows[i - 1][j - 1] + 1);
            }
            row.push(least);
        }
        rows.push(row);
    }
    rows[from.len()][to.len()]
}

#[cfg(test)]
mod tests {
    use super::*;

    #[test]
    fn near_names_are_found() {
        let names = ["show", "why", "same", "split"];
        assert_eq!(nearest("shwo", names.into_iter()), Some("show"));
        assert_eq!(nearest("splt", names.into_iter()), Some("split"));
        assert_eq!(nearest("WHY", names.into_iter()), Some("why"));
        assert_eq!(nearest("banana", names.into_iter()), None);
        assert_eq!(distance("", "abc"), 3);
        assert_eq!(distance("kitten", "sitting"), 3);
    }
}
