//! The words behind a command's name: options, those with a value and those without, and the rest in order.
use crate::trouble::Trouble;
use std::str::FromStr;

/// The options that a command knows.
#[derive(Clone, Copy)]
pub struct Options {
    /// Those with a value, as `--depth 3` or `--depth=3`.
    pub valued: &'static [&'static str],
    pub flags: &'static [&'static str],
}

impl Options {
    pub const NONE: Options = Options { valued: &[], flags: &[] };
}

#[derive(Debug, Default, PartialEq)]
pub struct Arguments {
    rest: Vec<String>,
    values: Vec<(String, String)>,
    flags: Vec<String>,
}

impl Arguments {
    /// Sorts the words. Behind `--` there are no options; `-` alone is a file.
    pub fn of(words: &[String], options: Options) -> Result<Arguments, Trouble> {
        let mut arguments = Arguments::default();
        let mut words = words.iter();
        while let Some(word) = words.next() {
            if word == "--" {
                arguments.rest.extend(words.by_ref().cloned());
            } else if !word.starts_with('-') || word == "-" {
                arguments.rest.push(word.clone());
            } else if options.flags.contains(&word.as_str()) {
                arguments.flags.push(word.clone());
            } else {
                let (name, joined) = match word.split_once('=') {
                    Some((name, value)) => (name, Some(value.to_owned())),
                    None => (word.as_str(), None),
                };
                if !options.valued.contains(&name) {
                    return Err(Trouble::Usage(format!("there is no option {name} here")));
                }
                let value = joined.or_else(|| words.next().cloned());
                let value = value.ok_or_else(|| Trouble::Usage(format!("{name} needs a value")))?;
                arguments.values.push((name.to_owned(), value));
            }
        }
        Ok(arguments)
    }

    /// The words that are no options, where there are just so many.
    pub fn words<const N: usize>(&self) -> Result<&[String; N], Trouble> {
        self.rest.as_slice().try_into().map_err(|_| wrong_count())
    }

    /// The first of them and those behind it, where there is one.
    pub fn first_word(&self) -> Result<(&String, &[String]), Trouble> {
        self.rest.split_first().ok_or_else(wrong_count)
    }

    pub fn has(&self, flag: &str) -> bool {
        self.flags.iter().any(|given| given == flag)
    }

    /// The last value given for an option.
    pub fn value(&self, name: &str) -> Option<&str> {
        self.values.iter().rev().find(|(given, _)| given == name).map(|(_, value)| value.as_str())
    }

    /// An option's number, or what it is where the option isn't given.
    pub fn number<N: FromStr>(&self, name: &str, absent: N) -> Result<N, Trouble> {
        Ok(self.given(name)?.unwrap_or(absent))
    }

    /// An option's number, where the option is given.
    pub fn given<N: FromStr>(&self, name: &str) -> Result<Option<N>, Trouble> {
        self.value(name).map(|text| number(name, text)).transpose()
    }
}

fn wrong_count() -> Trouble {
    Trouble::Usage("there are too few words, or too many".into())
}

/// A number that somebody wrote.
pub fn number<N: FromStr>(what: &str, text: &str) -> Result<N, Trouble> {
    text.parse().map_err(|_| Trouble::Usage(format!("{what}: '{text}' is no number, or too large")))
}

#[cfg(test)]
mod tests {
    use super::*;

    const OPTIONS: Options = Options { valued: &["--depth", "-o"], flags: &["--decimal"] };

    fn of(words: &[&str]) -> Result<Arguments, Trouble> {
        let words: Vec<String> = words.iter().map(|word| word.to_string()).collect();
        Arguments::of(&words, OPTIONS)
    }

    #[test]
    fn options_stand_anywhere() {
        let arguments = of(&["plan", "--depth", "3", "-", "--decimal", "--depth=4", "--", "--keys"]).unwrap();
        assert_eq!(arguments.words().unwrap(), &["plan", "-", "--keys"]);
        assert!(matches!(arguments.words::<2>(), Err(Trouble::Usage(_))));
        assert_eq!(arguments.first_word().unwrap().1, ["-", "--keys"]);
        assert!(matches!(of(&["--decimal"]).unwrap().first_word(), Err(Trouble::Usage(_))));
        assert_eq!(arguments.number("--depth", 9_u64).unwrap(), 4);
        assert_eq!(arguments.number("-o", 9_u64).unwrap(), 9);
        assert_eq!((arguments.given("--depth").unwrap(), arguments.given::<u64>("-o").unwrap()), (Some(4_u64), None));
        assert!(arguments.has("--decimal") && !arguments.has("--other"));
        assert_eq!(arguments.value("-o"), None);
    }

    #[test]
    fn what_is_no_option_is_told() {
        assert!(matches!(of(&["--deep"]), Err(Trouble::Usage(_))));
        assert!(matches!(of(&["--depth"]), Err(Trouble::Usage(_))));
        assert!(matches!(of(&["--decimal=1"]), Err(Trouble::Usage(_))));
        assert!(of(&["--depth", "-3"]).unwrap().number("--depth", 0_u64).is_err());
    }
}
