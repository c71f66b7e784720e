//! Datasets, from the wire's form to the host's (little endian, without gaps) and back.

use crate::raw;
use crate::refusal::Refusal;

/// Octets written, or 21, 22, 23, 24, 25. The run holds the descriptions: an id, the number of elements, then type and count each.
pub fn to_host(run: &[u32], id: u32, source: &[u8], target: &mut [u8]) -> Result<usize, Refusal> {
    // SAFETY: run and source are readable and the target writable, each for its length
    let outcome = unsafe {
        raw::trdp_to_host(run.as_ptr(), run.len(), id, source.as_ptr(), source.len(), target.as_mut_ptr(), target.len())
    };
    Refusal::or(outcome.refusal, outcome.value)
}

/// Octets written, or 21, 22, 23, 24, 25.
pub fn to_wire(run: &[u32], id: u32, source: &[u8], target: &mut [u8]) -> Result<usize, Refusal> {
    // SAFETY: run and source are readable and the target writable, each for its length
    let outcome = unsafe {
        raw::trdp_to_wire(run.as_ptr(), run.len(), id, source.as_ptr(), source.len(), target.as_mut_ptr(), target.len())
    };
    Refusal::or(outcome.refusal, outcome.value)
}

#[cfg(test)]
mod tests {
    use super::*;

    #[test]
    fn measured_by_hand() {
        let run = [1001, 2, 8, 1, 9, 0];
        let (wire, host) = ([2, 0, 1, 0, 2], [2, 1, 0, 2, 0]);
        let mut target = [0xAA; 6];
        assert_eq!(to_host(&run, 1001, &wire, &mut target), Ok(5));
        assert_eq!(target, [2, 1, 0, 2, 0, 0xAA]);
        assert_eq!(to_wire(&run, 1001, &host, &mut target), Ok(5));
        assert_eq!(target, [2, 0, 1, 0, 2, 0xAA]);
        assert_eq!(to_host(&run, 1001, &[2, 0, 1, 0], &mut target), Err(Refusal::Data));
        assert_eq!(to_host(&run, 1002, &[], &mut target), Err(Refusal::NotDescribed));
        assert_eq!(to_wire(&run, 1001, &host, &mut target[..4]), Err(Refusal::DataTargetTooShort));
    }
}
