//! Lines of another form.

use super::Generator;

/// Near the digits and letters, and far from them.
const STRANGERS: &[u8] = b"g/:@G`afz-+.x\t\r\0\x1F\x7F\x80\xFF";

impl Generator {
    /// The line with one thing wrong; by chance it may still be a right one.
    pub fn damaged_line(&mut self, mut line: Vec<u8>) -> Vec<u8> {
        let place = self.random.below(line.len());
        let verb = line.iter().position(|character| *character == b' ').unwrap_or(line.len());
        match self.random.below(14) {
            0 => line.insert(place, b' '),
            1 => drop(line.remove(place)),
            2 => line.insert(place, self.random.pick(b"0123456789ABCDEF")),
            3 => line[place] = self.random.pick(STRANGERS),
            4 => line.push(b' '),
            5 => line.insert(0, b' '),
            6 => line.push(b'\r'),
            7 => line[verb..].make_ascii_lowercase(),
            8 => line.clear(),
            9 => line.truncate(place),
            10 => line.extend_from_slice(b" 00000000"),
            11 => line.extend_from_slice(b"00"),
            12 => line.splice(..verb, *b"stop").for_each(drop),
            _ => line[..verb].make_ascii_uppercase(),
        }
        line
    }
}
