//! The dataset walk from the wire to host form: once to judge, once to write, so that a refusal leaves the target as it was.

struct Walk<'a> {
    run: &'a [u32],
    source: &'a [u8],
    at: usize,
}

/// The parts of a scalar that are turned round, each by itself.
fn parts(kind: u32) -> (usize, usize) {
    match kind {
        1 | 2 | 4 | 8 => (1, 0),
        3 | 5 | 9 => (2, 0),
        6 | 10 | 12 | 14 => (4, 0),
        15 => (4, 2),
        16 => (4, 4),
        _ => (8, 0),
    }
}

/// The elements of the first description of `id`, type and count each.
fn look_up(run: &[u32], id: u32) -> Result<&[u32], u8> {
    if run.len() > 4096 {
        return Err(23);
    }
    let mut rest = run;
    while !rest.is_empty() {
        let [described, number, elements @ ..] = rest else { return Err(23) };
        let number = *number as usize;
        if *described <= 16 || number == 0 || number > elements.len() / 2 {
            return Err(23);
        }
        let (elements, behind) = elements.split_at(2 * number);
        if elements.chunks_exact(2).any(|element| element[0] == 0) {
            return Err(23);
        }
        if *described == id {
            return Ok(elements);
        }
        rest = behind;
    }
    Err(21)
}

impl Walk<'_> {
    fn dataset(&mut self, id: u32, level: u32, target: &mut Option<&mut [u8]>) -> Result<(), u8> {
        if level > 5 {
            return Err(22);
        }
        let run = self.run;
        let mut before = None;
        for element in look_up(run, id)?.chunks_exact(2) {
            let (kind, described) = (element[0], element[1]);
            let count = if described == 0 { before.ok_or(23)? } else { described };
            before = None;
            for _ in 0..count {
                if kind > 16 {
                    self.dataset(kind, level + 1, target)?;
                } else {
                    before = self.scalar(kind, target)?;
                }
            }
            before = before.filter(|_| described == 1);
        }
        Ok(())
    }

    fn scalar(&mut self, kind: u32, target: &mut Option<&mut [u8]>) -> Result<Option<u32>, u8> {
        let (first, second) = parts(kind);
        let octets = self.source.get(self.at..self.at + first + second).ok_or(24)?;
        if let Some(target) = target {
            let turned = &mut target[self.at..self.at + first + second];
            turned.copy_from_slice(octets);
            turned[..first].reverse();
            turned[first..].reverse();
        }
        self.at += first + second;
        let value = octets.iter().fold(0, |value, octet| value << 8 | u32::from(*octet));
        Ok(if matches!(kind, 8..=10) { Some(value) } else { None })
    }
}

#[inline(never)]
pub fn to_host(run: &[u32], id: u32, source: &[u8], target: &mut [u8]) -> Result<usize, u8> {
    let mut judging = Walk { run, source, at: 0 };
    judging.dataset(id, 1, &mut None)?;
    if judging.at != source.len() {
        return Err(24);
    }
    if target.len() < source.len() {
        return Err(25);
    }
    Walk { run, source, at: 0 }.dataset(id, 1, &mut Some(target))?;
    Ok(source.len())
}
