//! What somebody meant who mistyped a word.

/// The word among these that is the nearest to this one; none where no word is near.
pub(crate) fn nearest<'w>(word: &str, among: impl IntoIterator<Item = &'w str>) -> Option<&'w str> {
    let word = word.to_lowercase();
    // A slip in a short word, and one more for every three letters of a longer one.
    let most = (word.chars().count() / 3).max(1);
    among
        .into_iter()
        .map(|other| (distance(&word, &other.to_lowercase()), other))
        .filter(|(distance, _)| *distance <= most)
        .min_by_key(|(distance, _)| *distance)
        .map(|(_, other)| other)
}

/// How many letters have to be put in, left out, replaced or swapped with the next to make one word of the other.
fn distance(word: &str, other: &str) -> usize {
    let other: Vec<char> = other.chars().collect();
    // The distances of what was read of the word from each beginning of the other, and those of a letter before.
    let mut row: Vec<usize> = (0..=other.len()).collect();
    let mut above: Vec<usize> = Vec::new();
    let mut last = None;
    for (read, letter) in (1..).zip(word.chars()) {
        let mut next = vec![read];
        for (place, &against) in other.iter().enumerate() {
            let at = |row: &[usize], place: usize| row.get(place).copied().unwrap_or(usize::MAX);
            let mut least = at(&row, place).saturating_add(usize::from(letter != against));
            least = least.min(at(&row, place.saturating_add(1)).saturating_add(1));
            least = least.min(at(&next, place).saturating_add(1));
            if let Some(before) = place.checked_sub(1) {
                let swapped = last == Some(against) && other.get(before) == Some(&letter);
                if swapped {
                    least = least.min(at(&above, before).saturating_add(1));
                }
            }
            next.push(least);
        }
        above = std::mem::replace(&mut row, next);
        last = Some(letter);
    }
    row.last().copied().unwrap_or(0)
}

#[cfg(test)]
mod tests {
    use super::*;

    #[test]
    fn distances() {
        assert_eq!(distance("check", "check"), 0);
        assert_eq!(distance("chek", "check"), 1);
        assert_eq!(distance("chekc", "check"), 1);
        assert_eq!(distance("xcheck", "check"), 1);
        assert_eq!(distance("", "abc"), 3);
        assert_eq!(distance("abc", ""), 3);
        assert_eq!(distance("kitten", "sitting"), 3);
    }

    #[test]
    fn what_was_meant() {
        let words = ["check", "parts", "info", "points", "rewrite"];
        assert_eq!(nearest("chek", words), Some("check"));
        assert_eq!(nearest("Point", words), Some("points"));
        assert_eq!(nearest("rewirte", words), Some("rewrite"));
        assert_eq!(nearest("delete", words), None);
        assert_eq!(nearest("inof", words), Some("info"));
    }
}
