//! What somebody may have meant.

/// The words that differ from this one by the fewest letters, if these are few.
pub fn near<'a>(word: &str, among: impl Iterator<Item = &'a str>) -> Vec<&'a str> {
    let most = (word.chars().count() / 3).clamp(1, 2);
    let mut found: Vec<(usize, &str)> =
        among.map(|other| (distance(word, other), other)).filter(|&(far, _)| far <= most).collect();
    found.sort();
    found.dedup();
    let nearest = found.first().map_or(0, |&(far, _)| far);
    found.into_iter().filter(|&(far, _)| far == nearest).map(|(_, other)| other).take(3).collect()
}

/// `; did you mean a, b or c?`, or nothing.
pub fn meant(words: &[&str]) -> String {
    match words {
        [] => String::new(),
        [one] => format!("; did you mean {one}?"),
        [others @ .., last] => format!("; did you mean {} or {last}?", others.join(", ")),
    }
}

/// How many letters must be put in, taken out or changed, or exchanged with the next one; of which case they are
/// does not count.
fn distance(one: &str, other: &str) -> usize {
    let letters = |word: &str| word.to_lowercase().chars().collect::<Vec<char>>();
    let (one, other) = (letters(one), letters(other));
    let mut rows: Vec<Vec<usize>> = vec![(0..=other.len()).collect()];
    for (i, &letter) in one.iter().enumerate() {
        let mut row = vec![i + 1];
        for (j, &with) in other.iter().enumerate() {
            let change = rows[i][j] + usize::from(letter != with);
            let mut least = change.min(rows[i][j + 1] + 1).min(row[j] + 1);
            if i > 0 && j > 0 && letter == other[j - 1] && one[i - 1] == with {
                least = least.min(rows[i - 1][j - 1] + 1);
            }
            row.push(least);
        }
        rows.push(row);
    }
    rows[one.len()][other.len()]
}

#[cfg(test)]
mod tests {
    use super::{distance, meant, near};

    #[test]
    fn letters_apart() {
        assert_eq!(distance("nations", "nation"), 1);
        assert_eq!(distance("gbr", "GBR"), 0);
        assert_eq!(distance("GRB", "GBR"), 1);
        assert_eq!(distance("page", "owners"), 5);
    }

    #[test]
    fn the_nearest_are_meant() {
        let words = ["check", "describe", "nations"];
        assert_eq!(near("natoins", words.into_iter()), ["nations"]);
        assert!(near("weather", words.into_iter()).is_empty());
        assert_eq!(meant(&["a", "b", "c"]), "; did you mean a, b or c?");
        assert_eq!(meant(&[]), "");
    }
}
