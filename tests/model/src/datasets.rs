//! Datasets between the wire and host form.

use crate::refusal::{refuse_if, Refusal};

/// The longest run of descriptions.
pub const NUMBERS: usize = 4096;
/// Datasets nest to five levels, the outermost being level 1.
pub const LEVELS: u32 = 5;
/// Types up to 16 are scalars; a type above is a dataset id.
const SCALARS: u32 = 16;
/// UINT8, UINT16, UINT32: a count can be taken from these.
pub const COUNTS: [u32; 3] = [8, 9, 10];

#[derive(Clone, Copy, PartialEq, Eq)]
pub enum Direction {
    ToHost,
    ToWire,
}

#[derive(Clone, Copy)]
pub struct Element {
    pub kind: u32,
    pub count: u32,
}

impl Element {
    /// The octets of one scalar of its type.
    pub fn size(&self) -> usize {
        parts(self.kind).iter().sum()
    }
}

/// The octets of a scalar's parts; each part is turned round by itself.
fn parts(kind: u32) -> &'static [usize] {
    match kind {
        1 | 2 | 4 | 8 => &[1],
        3 | 5 | 9 => &[2],
        6 | 10 | 12 | 14 => &[4],
        7 | 11 | 13 => &[8],
        15 => &[4, 2],
        16 => &[4, 4],
        _ => unreachable!("not a scalar"),
    }
}

/// The elements of the first description of `id`. The run is read through its end: a fault up to there is 23, a clean end 21.
pub fn look_up(run: &[u32], id: u32) -> Result<Vec<Element>, Refusal> {
    refuse_if(run.len() > NUMBERS, Refusal::Malformed)?;
    let mut rest = run;
    while !rest.is_empty() {
        refuse_if(rest.len() < 2, Refusal::Malformed)?;
        let (described, number) = (rest[0], rest[1] as usize);
        refuse_if(described <= SCALARS || number == 0, Refusal::Malformed)?;
        refuse_if(number > (rest.len() - 2) / 2, Refusal::Malformed)?;
        let (description, behind) = rest[2..].split_at(2 * number);
        let elements: Vec<Element> = description.chunks(2).map(|pair| Element { kind: pair[0], count: pair[1] }).collect();
        refuse_if(elements.iter().any(|element| element.kind == 0), Refusal::Malformed)?;
        if described == id {
            return Ok(elements);
        }
        rest = behind;
    }
    Err(Refusal::NotDescribed)
}

struct Walk<'a> {
    run: &'a [u32],
    direction: Direction,
    /// the data not yet walked over
    data: &'a [u8],
    turned: Vec<u8>,
}

impl Walk<'_> {
    /// One dataset: 22, the look-up's, then its elements.
    fn dataset(&mut self, id: u32, level: u32) -> Result<(), Refusal> {
        refuse_if(level > LEVELS, Refusal::TooDeep)?;
        let mut before = None;
        for element in look_up(self.run, id)? {
            let count = if element.count == 0 { before.ok_or(Refusal::Malformed)? } else { element.count };
            before = self.items(element, count, level)?;
        }
        Ok(())
    }

    /// The items of one element. Answers the value that a count of 0 directly behind it takes.
    fn items(&mut self, element: Element, count: u32, level: u32) -> Result<Option<u32>, Refusal> {
        let mut value = None;
        for _ in 0..count {
            if element.kind > SCALARS {
                self.dataset(element.kind, level + 1)?;
            } else {
                value = self.scalar(element.kind)?;
            }
        }
        let single = element.count == 1;
        Ok(value.filter(|_| single))
    }

    /// One scalar, its octets turned round; 24 where the data end early. Answers the value of a UINT8, UINT16 or UINT32.
    fn scalar(&mut self, kind: u32) -> Result<Option<u32>, Refusal> {
        let size = parts(kind).iter().sum();
        refuse_if(self.data.len() < size, Refusal::Data)?;
        let (octets, behind) = self.data.split_at(size);
        self.data = behind;
        let mut rest = octets;
        for size in parts(kind) {
            let (part, behind) = rest.split_at(*size);
            self.turned.extend(part.iter().rev());
            rest = behind;
        }
        Ok(COUNTS.contains(&kind).then(|| number(self.direction, octets)))
    }
}

/// The number that these octets are: big endian on the wire, little endian in host form.
fn number(direction: Direction, octets: &[u8]) -> u32 {
    let behind = |value: u32, octet: &u8| value << 8 | u32::from(*octet);
    match direction {
        Direction::ToHost => octets.iter().fold(0, behind),
        Direction::ToWire => octets.iter().rev().fold(0, behind),
    }
}

/// Turns the data of dataset `id` round into the target: the walk's faults, 24 for data left over, 25. Answers the octets written.
pub fn convert(run: &[u32], direction: Direction, id: u32, data: &[u8], target: &mut [u8]) -> Result<usize, Refusal> {
    let mut walk = Walk { run, direction, data, turned: Vec::new() };
    walk.dataset(id, 1)?;
    refuse_if(!walk.data.is_empty(), Refusal::Data)?;
    refuse_if(target.len() < data.len(), Refusal::Target)?;
    target[..data.len()].copy_from_slice(&walk.turned);
    Ok(data.len())
}

#[cfg(test)]
mod tests {
    use super::*;

    #[test]
    fn measured_by_hand() {
        let run = [1001, 2, 8, 1, 9, 0];
        let host = |wire: &[u8]| {
            let mut target = vec![0; wire.len()];
            convert(&run, Direction::ToHost, 1001, wire, &mut target).map(|_| target)
        };
        assert_eq!(host(&[2, 0, 1, 0, 2]), Ok(vec![2, 1, 0, 2, 0]));
        assert_eq!(host(&[0]), Ok(vec![0]));
        assert_eq!(host(&[2, 0, 1, 0]), Err(Refusal::Data));
    }
}
