//! Keys from the bytes that a terminal sends.

#[derive(Clone, Copy, PartialEq, Eq, Debug)]
pub enum Key {
    /// One of document 01's letters.
    Letter(u8),
    Remember,
    Return,
    Compare,
    /// q, control-C or control-D.
    End,
    /// Control-Z.
    Stop,
    Other,
}

/// What has come of a key of several bytes: escape, a bracket or O, perhaps numbers, and a last byte that says which key it is.
#[derive(Default)]
pub struct Keys {
    begun: Begun,
}

#[derive(Clone, Copy, Default)]
enum Begun {
    #[default]
    No,
    Escape,
    /// With the first number behind the bracket, as far as it has come.
    Bracket(u16),
}

const ESCAPE: u8 = 0x1B;

impl Keys {
    /// The key that this byte ends, if it ends one.
    pub fn take(&mut self, byte: u8) -> Option<Key> {
        match std::mem::take(&mut self.begun) {
            Begun::No if byte == ESCAPE => self.begun = Begun::Escape,
            Begun::No => return Some(plain(byte)),
            Begun::Escape if byte == b'[' || byte == b'O' => self.begun = Begun::Bracket(0),
            Begun::Escape if byte == ESCAPE => self.begun = Begun::Escape,
            Begun::Escape => return Some(Key::Other),
            Begun::Bracket(number) => match byte {
                b'0'..=b'9' => {
                    let digit = u16::from(byte - b'0');
                    self.begun = Begun::Bracket(number.saturating_mul(10).saturating_add(digit));
                }
                // Signs between numbers: what follows isn't asked for.
                0x20..=0x3F => self.begun = Begun::Bracket(u16::MAX),
                _ => return Some(last(number, byte)),
            },
        }
        None
    }
}

fn plain(byte: u8) -> Key {
    match byte {
        b'a' | b'z' | b'f' | b'l' | b'n' | b'p' | b'u' | b's' => Key::Letter(byte),
        b'm' => Key::Remember,
        b'g' => Key::Return,
        b'=' => Key::Compare,
        b'q' | 3 | 4 => Key::End,
        26 => Key::Stop,
        _ => Key::Other,
    }
}

/// The key of a last byte behind a bracket and a number: arrows, Home and End.
fn last(number: u16, byte: u8) -> Key {
    match (byte, number) {
        (b'A', 0 | 1) => Key::Letter(b'p'),
        (b'B', 0 | 1) => Key::Letter(b'n'),
        (b'C', 0 | 1) => Key::Letter(b'f'),
        (b'D', 0 | 1) => Key::Letter(b'u'),
        (b'H', 0 | 1) | (b'~', 1 | 7) => Key::Letter(b'a'),
        (b'F', 0 | 1) | (b'~', 4 | 8) => Key::Letter(b'z'),
        _ => Key::Other,
    }
}

#[cfg(test)]
mod tests {
    use super::*;

    fn keys(bytes: &[u8]) -> Vec<Key> {
        let mut keys = Keys::default();
        bytes.iter().filter_map(|byte| keys.take(*byte)).collect()
    }

    #[test]
    fn letters_and_arrows() {
        let letters = |text: &[u8]| text.iter().map(|letter| Key::Letter(*letter)).collect::<Vec<Key>>();
        assert_eq!(keys(b"azflnpus"), letters(b"azflnpus"));
        assert_eq!(keys(b"\x1b[A\x1b[B\x1b[C\x1b[D\x1b[H\x1b[F"), letters(b"pnfuaz"));
        assert_eq!(keys(b"\x1bOA\x1bOB\x1bOC\x1bOD\x1bOH\x1bOF"), letters(b"pnfuaz"));
        assert_eq!(keys(b"\x1b[1~\x1b[4~\x1b[7~\x1b[8~"), letters(b"azaz"));
        assert_eq!(keys(b"\x1b\x1b[A"), letters(b"p"));
    }

    #[test]
    fn other_keys() {
        assert_eq!(
            keys(b"mg=q\x03\x04\x1a"),
            [Key::Remember, Key::Return, Key::Compare, Key::End, Key::End, Key::End, Key::Stop]
        );
        assert_eq!(
            keys(b"x\x1b[5~\x1b[1;5A\x1bx\x1b[99999999Ba"),
            [[Key::Other; 5].as_slice(), &[Key::Letter(b'a')]].concat()
        );
        assert_eq!(keys(b"\x1b[1"), []);
        assert_eq!(keys("é".as_bytes()), [Key::Other; 2]);
    }
}
