//! The word that was meant by one that is misspelt.

/// How many signs are to be put in, left out, changed or swapped with their neighbour to make one word of another.
fn distance(from: &str, to: &str) -> usize {
    let [from, to] = [from, to].map(|word| word.chars().collect::<Vec<char>>());
    let mut rows = vec![(0..=to.len()).collect::<Vec<usize>>()];
    for x in 1..=from.len() {
        let mut row = vec![x];
        for y in 1..=to.len() {
            let changed = rows[x - 1][y - 1] + usize::from(from[x - 1] != to[y - 1]);
            let least = changed.min(rows[x - 1][y] + 1).min(row[y - 1] + 1);
            let swap = x > 1 && y > 1 && from[x - 1] == to[y - 2] && from[x - 2] == to[y - 1];
            row.push(if swap { least.min(rows[x - 2][y - 2] + 1) } else { least });
        }
        rows.push(row);
    }
    rows[from.len()][to.len()]
}

/// What is told of a word that is none of these: the nearest, where one is near.
pub fn meant<'a>(word: &str, known: impl Iterator<Item = &'a str>) -> String {
    // At most two changes, and not more than one for three signs.
    let near = |far: &usize| *far <= 2 && 3 * far <= word.chars().count();
    let nearest = known.map(|one| (distance(&word.to_lowercase(), one), one)).min_by_key(|&(far, _)| far);
    match nearest.filter(|(far, _)| near(far)) {
        Some((_, one)) => format!(" (did you mean {one}?)"),
        None => String::new(),
    }
}

#[cfg(test)]
mod tests {
    use super::*;

    #[test]
    fn distances() {
        for (from, to, far) in [
            ("", "", 0),
            ("", "ab", 2),
            ("ab", "", 2),
            ("settle", "settle", 0),
            ("setle", "settle", 1),
            ("settel", "settle", 1),
            ("settlle", "settle", 1),
            ("zettle", "settle", 1),
            ("esttel", "settle", 2),
            ("abc", "cab", 2),
            ("kitten", "sitting", 3),
        ] {
            assert_eq!((distance(from, to), distance(to, from)), (far, far), "{from} {to}");
        }
    }

    #[test]
    fn words_that_are_near() {
        let known = || ["settle", "find", "show", "sheets", "lock", "unlock"].into_iter();
        for (word, near) in
            [("setle", "settle"), ("SHOW", "show"), ("shwo", "show"), ("lok", "lock"), ("sheet", "sheets")]
        {
            assert_eq!(meant(word, known()), format!(" (did you mean {near}?)"));
        }
        for word in ["grind", "x", "", "so", "fi", "tell", "unlocked!!"] {
            assert_eq!(meant(word, known()), "", "{word}");
        }
        assert_eq!(meant("settle", std::iter::empty()), "");
    }
}
