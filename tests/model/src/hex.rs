//! Lines of hexadecimal, capitals only: fields read, octets shown.

/// A line's fields, with single spaces between, read from the left.
pub struct Fields<'a> {
    rest: Option<&'a [u8]>,
}

/// The longest OCTETS field.
pub const OCTETS: usize = 66_000;

fn digit(character: u8) -> Option<u8> {
    match character {
        b'0'..=b'9' => Some(character - b'0'),
        b'A'..=b'F' => Some(character - b'A' + 10),
        _ => None,
    }
}

impl<'a> Fields<'a> {
    pub fn of(line: &'a [u8]) -> Fields<'a> {
        Fields { rest: Some(line) }
    }

    /// What stands before the next space, or before the line's end; nothing behind the end.
    pub fn word(&mut self) -> Option<&'a [u8]> {
        let rest = self.rest?;
        match rest.iter().position(|character| *character == b' ') {
            Some(space) => {
                self.rest = Some(&rest[space + 1..]);
                Some(&rest[..space])
            }
            None => {
                self.rest = None;
                Some(rest)
            }
        }
    }

    /// A number of exactly this many digits.
    fn number(&mut self, width: usize) -> Option<u64> {
        let word = self.word()?;
        if word.len() != width {
            return None;
        }
        word.iter().try_fold(0, |value, character| Some(value << 4 | u64::from(digit(*character)?)))
    }

    pub fn number1(&mut self) -> Option<u8> {
        Some(self.number(1)? as u8)
    }

    pub fn number4(&mut self) -> Option<u16> {
        Some(self.number(4)? as u16)
    }

    pub fn number8(&mut self) -> Option<u32> {
        Some(self.number(8)? as u32)
    }

    pub fn number16(&mut self) -> Option<u64> {
        self.number(16)
    }

    /// An even number of digits, perhaps none.
    pub fn octets(&mut self) -> Option<Vec<u8>> {
        let word = self.word()?;
        if word.len() % 2 != 0 || word.len() > 2 * OCTETS {
            return None;
        }
        word.chunks(2).map(|pair| Some(digit(pair[0])? << 4 | digit(pair[1])?)).collect()
    }

    /// Exactly N octets.
    pub fn array<const N: usize>(&mut self) -> Option<[u8; N]> {
        self.octets()?.try_into().ok()
    }

    /// Nothing is left.
    pub fn end(&self) -> Option<()> {
        match self.rest {
            None => Some(()),
            Some(_) => None,
        }
    }
}

/// Octets as digits.
pub fn shown(octets: &[u8]) -> String {
    const DIGITS: &[u8; 16] = b"0123456789ABCDEF";
    let digits = |octet: &u8| [octet >> 4, octet & 15].map(|half| char::from(DIGITS[usize::from(half)]));
    octets.iter().flat_map(digits).collect()
}

/// The lines of an input: each with its LF taken off, and whether it had one.
pub fn lines(input: &[u8]) -> impl Iterator<Item = (&[u8], bool)> {
    input.split_inclusive(|character| *character == b'\n').map(|line| match line.split_last() {
        Some((b'\n', line)) => (line, true),
        _ => (line, false),
    })
}
