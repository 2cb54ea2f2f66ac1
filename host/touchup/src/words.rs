//! The words of a line, and the numbers in them.

use std::fmt::Display;
use std::str::FromStr;
use yoltzimur::Side;

/// Splits a line at blanks. A word in double quotes may hold blanks; a `#` that begins a word begins a comment.
pub fn split(line: &str) -> Result<Vec<&str>, String> {
    let mut words = Vec::new();
    let mut rest = line.trim_start();
    while !rest.is_empty() && !rest.starts_with('#') {
        let (word, after) = match rest.strip_prefix('"') {
            Some(quoted) => quoted.split_once('"').ok_or("a word begins with \" and does not end with it")?,
            None => rest.split_at(rest.find(char::is_whitespace).unwrap_or(rest.len())),
        };
        words.push(word);
        rest = after.trim_start();
    }
    Ok(words)
}

/// A whole number of a range, or what was expected in its place.
pub fn whole<T: FromStr + Display + PartialOrd>(what: &str, word: &str, least: T, most: T) -> Result<T, String> {
    let within = word.parse().ok().filter(|number| (&least..=&most).contains(&number));
    within.ok_or_else(|| format!("{what} is '{word}', and a whole number from {least} to {most} is expected"))
}

/// A number with or without a fraction.
pub fn fraction(what: &str, word: &str) -> Result<f64, String> {
    word.parse().map_err(|_| format!("{what} is '{word}', and a number such as 1.0 is expected"))
}

/// A side, by its name.
pub fn side(word: &str) -> Result<Side, String> {
    match word {
        "backward" => Ok(Side::Backward),
        "forward" => Ok(Side::Forward),
        _ => Err(format!("the side is '{word}', and backward or forward is expected")),
    }
}

/// The name of a side.
pub fn side_name(side: Side) -> &'static str {
    match side {
        Side::Backward => "backward",
        Side::Forward => "forward",
    }
}

#[cfg(test)]
mod tests {
    use super::*;

    #[test]
    fn words_are_split_at_blanks_and_quotes() {
        assert_eq!(split(" put  forward 17\tx=5 # bend"), Ok(vec!["put", "forward", "17", "x=5"]));
        assert_eq!(split("take \"a b.bin\" c"), Ok(vec!["take", "a b.bin", "c"]));
        assert_eq!(split("# nothing"), Ok(vec![]));
        assert!(split("take \"a b").is_err());
    }

    #[test]
    fn numbers_beyond_their_type_or_their_range_are_told() {
        assert_eq!((whole("x", "1", 1, 64), whole("x", "64", 1, 64)), (Ok(1), Ok(64)));
        assert!(["0", "65"].iter().all(|word| whole("x", word, 1, 64).unwrap_err().contains("1 to 64")));
        assert_eq!(whole("x", "-32768", i16::MIN, i16::MAX), Ok(-32768));
        assert!(whole("x", "32768", i16::MIN, i16::MAX).unwrap_err().contains("-32768 to 32767"));
        assert!(whole("x", "5.0", i16::MIN, i16::MAX).is_err());
    }
}
