//! Labels as a person reads them.
use mealplan::Label;

/// The number, and the character if it is one.
pub fn told(label: Label) -> String {
    match character(label) {
        Some(character) => format!("{label} {character}"),
        None => label.to_string(),
    }
}

fn character(label: Label) -> Option<char> {
    u8::try_from(label).ok().filter(u8::is_ascii_graphic).map(char::from)
}

#[cfg(test)]
mod tests {
    #[test]
    fn labels_are_told_as_numbers_and_characters() {
        assert_eq!(
            [0, 32, 33, 99, 127, 200, 16_777_215].map(super::told),
            ["0", "32", "33 !", "99 c", "127", "200", "16777215"]
        );
    }
}
