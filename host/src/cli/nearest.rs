//! The nearest of several words to one with a typing mistake.

/// The word that a mistyped one begins, or that it is nearest to: at most two letters off, and fewer than half of it.
pub fn nearest<'a>(typed: &str, words: impl Iterator<Item = &'a str>) -> Option<&'a str> {
    let most = 2.min(typed.trim_start_matches('-').len().saturating_sub(1) / 2);
    let off = |word: &str| match typed.len() > 4 && word.starts_with(typed) {
        true => 0,
        false => distance(typed, word),
    };
    words.map(|word| (off(word), word)).filter(|(off, _)| *off <= most).min().map(|(_, word)| word)
}

/// How many letters are to be put in, taken out or changed, or two neighbours exchanged.
fn distance(one: &str, other: &str) -> usize {
    let (one, other): (Vec<char>, Vec<char>) = (one.chars().collect(), other.chars().collect());
    let mut before: Vec<usize> = Vec::new();
    let mut last: Vec<usize> = (0..=other.len()).collect();
    for i in 0..one.len() {
        let mut next = vec![i + 1];
        for j in 0..other.len() {
            let changed = last[j] + usize::from(one[i] != other[j]);
            let mut least = changed.min(last[j + 1] + 1).min(next[j] + 1);
            if i > 0 && j > 0 && one[i] == other[j - 1] && one[i - 1] == other[j] {
                least = least.min(before[j - 1] + 1);
            }
            next.push(least);
        }
        (before, last) = (last, next);
    }
    last[other.len()]
}

#[cfg(test)]
mod tests {
    use super::*;

    #[test]
    fn mistyped_words() {
        let options = ["--by", "--by-sender", "--key", "--key-file", "--full"];
        let near = |typed: &str| nearest(typed, options.into_iter());
        assert_eq!(near("--by-sendr"), Some("--by-sender"));
        assert_eq!(near("--by-sneder"), Some("--by-sender"));
        assert_eq!(near("--keyfile"), Some("--key-file"));
        assert_eq!(near("--ful"), Some("--full"));
        assert_eq!(near("--key-f"), Some("--key-file"));
        assert_eq!(near("--replay"), None);
        assert_eq!(near("-k"), None);
        assert_eq!(distance("ab", "ba"), 1);
        assert_eq!(distance("", "abc"), 3);
    }
}
