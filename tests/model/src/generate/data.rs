//! `types tohost towire`.

use super::Generator;
use crate::datasets::{look_up, Direction, Element, COUNTS, LEVELS, NUMBERS};
use crate::hex::shown;
use crate::language::MOST_NUMBERS;

const IDS: [u32; 10] = [17, 18, 19, 20, 21, 22, 1000, 1001, 0x0001_0000, 0xFFFF_FFFF];
const MOST_DATA: usize = 3000;

impl Generator {
    pub fn data_line(&mut self) -> String {
        if self.run.is_empty() || self.random.chance(12) {
            return self.types_line();
        }
        let direction = self.random.pick(&[Direction::ToHost, Direction::ToWire]);
        let word = if direction == Direction::ToHost { "tohost" } else { "towire" };
        let id = self.wanted_id();
        let mut data = Vec::new();
        self.sample(direction, id, 1, &mut data);
        data.truncate(MOST_DATA);
        self.damage_data(&mut data);
        let room = self.room(data.len());
        format!("{word} {id:08X} {room:04X} {}", shown(&data))
    }

    /// Mostly the run's first id.
    fn wanted_id(&mut self) -> u32 {
        match self.random.below(20) {
            0..=13 => self.run.first().copied().unwrap_or(17),
            14 => self.random.pick(&[0, 1, 8, 16, 23, 0x7FFF_FFFF]),
            _ => self.random.pick(&IDS),
        }
    }

    fn types_line(&mut self) -> String {
        let mut run = match self.random.below(20) {
            0..=4 => self.chain(),
            5 if self.random.once_in(2) => self.long_run(),
            _ => self.descriptions(),
        };
        if self.random.chance(20) {
            self.damage_run(&mut run);
        }
        let mut octets: Vec<u8> = run.iter().flat_map(|number| number.to_be_bytes()).collect();
        if self.random.once_in(40) {
            octets.extend_from_slice(&[0; 3][..1 + self.random.below(3)]);
        } else if run.len() <= MOST_NUMBERS {
            self.run = run;
        }
        format!("types {}", shown(&octets))
    }

    /// Datasets one inside the other, to four, five, six or seven levels; the innermost holds scalars.
    fn chain(&mut self) -> Vec<u32> {
        let levels = 4 + self.random.below(4);
        let mut run = Vec::new();
        for level in 0..levels {
            let mut elements = Vec::new();
            if self.random.chance(40) {
                elements.push(self.scalar());
            }
            if level + 1 < levels {
                let count = self.random.pick(&[1, 1, 2, 0]);
                if count == 0 {
                    elements.push((self.random.pick(&COUNTS), 1));
                }
                elements.push((IDS[level + 1], count));
            } else if elements.is_empty() {
                elements.push(self.scalar());
            }
            self.describe(&mut run, IDS[level], &elements);
        }
        run
    }

    fn describe(&mut self, run: &mut Vec<u32>, id: u32, elements: &[(u32, u32)]) {
        run.extend_from_slice(&[id, elements.len() as u32]);
        elements.iter().for_each(|(kind, count)| run.extend_from_slice(&[*kind, *count]));
    }

    fn scalar(&mut self) -> (u32, u32) {
        (1 + self.random.below(16) as u32, 1 + self.random.below(3) as u32)
    }

    /// A few descriptions with scalars, arrays of a counted length, and datasets in datasets.
    fn descriptions(&mut self) -> Vec<u32> {
        let mut run = Vec::new();
        let ids: Vec<u32> = (0..1 + self.random.below(4)).map(|_| self.random.pick(&IDS)).collect();
        for place in 0..ids.len() {
            let later = &ids[place + 1..];
            let mut elements = Vec::new();
            for _ in 0..1 + self.random.below(3) {
                match self.random.below(12) {
                    0..=4 => elements.push(self.scalar()),
                    5..=8 => {
                        elements.push((self.random.pick(&COUNTS), 1));
                        elements.push((self.any_type(later), 0));
                    }
                    9 => {
                        // a count that may not be taken, or not from there
                        elements.push((1 + self.random.below(16) as u32, self.random.pick(&[1, 1, 2])));
                        elements.push((self.any_type(later), 0));
                    }
                    10 if self.random.once_in(3) => elements.push((self.any_type(later), 0)),
                    _ => elements.push((self.nested(later), 1 + self.random.below(2) as u32)),
                }
            }
            self.describe(&mut run, ids[place], &elements);
        }
        run
    }

    /// Mostly an id that is described later in the run.
    fn nested(&mut self, later: &[u32]) -> u32 {
        if later.is_empty() || self.random.chance(10) {
            self.random.pick(&IDS)
        } else {
            self.random.pick(later)
        }
    }

    fn any_type(&mut self, later: &[u32]) -> u32 {
        if self.random.chance(if later.is_empty() { 5 } else { 30 }) {
            self.nested(later)
        } else {
            1 + self.random.below(16) as u32
        }
    }

    /// A sound run of about 4,096 numbers, or of about as many as a line may carry.
    fn long_run(&mut self) -> Vec<u32> {
        let length = self.random.pick(&[NUMBERS - 2, NUMBERS, NUMBERS + 2, NUMBERS + 4, MOST_NUMBERS, MOST_NUMBERS + 4]);
        let mut run = vec![IDS[0], 1, 8, 1];
        let rest = (length - run.len() - 2) / 2;
        run.extend_from_slice(&[IDS[1], rest as u32]);
        (0..rest).for_each(|_| run.extend_from_slice(&[4, 1]));
        run
    }

    /// One number wrong, or the run cut or carried on.
    fn damage_run(&mut self, run: &mut Vec<u32>) {
        let place = self.random.below(run.len());
        match self.random.below(8) {
            0 => run.truncate(place),
            1 => run.push(self.random.pick(&IDS)),
            2 => run.extend_from_slice(&[IDS[6], self.random.pick(&[0, 1, 0xFFFF_FFFF, 0x8000_0000])]),
            3 => run.extend_from_slice(&[self.random.pick(&[0, 5, 16]), 1, 8, 1]),
            4 => run.extend_from_slice(&[IDS[7], 1, 0, 1]),
            5 => run[place] = self.random.pick(&[0, 1, 16, 17, 0xFFFF_FFFF]),
            6 => run.clear(),
            _ => drop(run.remove(place)),
        }
    }

    /// Data that fit the description of `id` as far as it is sound. Answers whether all of it was.
    fn sample(&mut self, direction: Direction, id: u32, level: u32, data: &mut Vec<u8>) -> bool {
        let Ok(elements) = look_up(&self.run, id) else { return false };
        if level > LEVELS || data.len() > MOST_DATA {
            return false;
        }
        let mut before = 0;
        for (place, element) in elements.iter().enumerate() {
            let counts = elements.get(place + 1).is_some_and(|next| next.count == 0);
            let count = if element.count == 0 { before } else { element.count.min(MOST_DATA as u32) };
            for _ in 0..count {
                if element.kind > 16 {
                    if !self.sample(direction, element.kind, level + 1, data) {
                        return false;
                    }
                } else {
                    before = self.scalar_octets(direction, element, counts, data);
                }
            }
        }
        true
    }

    /// A scalar's octets; a small number where the next element takes its count from here.
    fn scalar_octets(&mut self, direction: Direction, element: &Element, counts: bool, data: &mut Vec<u8>) -> u32 {
        let mut octets = self.random.octets(element.size());
        let value = self.random.pick(&[0, 0, 1, 2, 3]);
        if counts && !self.random.once_in(40) {
            let last = octets.len() - 1;
            octets.fill(0);
            octets[if direction == Direction::ToHost { last } else { 0 }] = value as u8;
        }
        data.extend_from_slice(&octets);
        value
    }

    fn damage_data(&mut self, data: &mut Vec<u8>) {
        match self.random.below(20) {
            0 => drop(data.pop()),
            1 => data.push(self.random.next() as u8),
            2 => data.truncate(self.random.below(data.len() + 1)),
            3 if !data.is_empty() => {
                let place = self.random.below(data.len());
                data[place] = self.random.pick(&[0, 1, 2, 0x80, 0xFF]);
            }
            _ => {}
        }
    }
}
