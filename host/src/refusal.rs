//! The numbers a call may refuse with.

use std::fmt;

/// Why a call was refused.
#[derive(Clone, Copy, Debug, PartialEq, Eq)]
#[repr(u8)]
pub enum Refusal {
    LentSizes = 1,
    TooShort,
    FrameCheck,
    Version,
    Type,
    Length,
    Topography,
    NoMatch,
    Stale,
    NoSlot,
    Range,
    FilterInUse,
    NoFreeSlot,
    NotDue,
    TargetTooShort,
    DatasetTooLong,
    SessionInUse,
    NoFreeSession,
    NoSession,
    Uri,
    NotDescribed,
    TooDeep,
    Malformed,
    Data,
    DataTargetTooShort,
}

/// Each refusal at its number less one, and when it is given.
const REFUSALS: [(Refusal, &str); 25] = [
    (Refusal::LentSizes, "more than 32 slots, or store not 1432 octets a slot; or a record that says over 1432"),
    (Refusal::TooShort, "shorter than the header"),
    (Refusal::FrameCheck, "frame check differs"),
    (Refusal::Version, "version's high octet is not 1"),
    (Refusal::Type, "type not of this family"),
    (Refusal::Length, "datasetLength over its limit, or datagram not header plus padded dataset"),
    (Refusal::Topography, "topography counters differ"),
    (Refusal::NoMatch, "no subscription or listener matches"),
    (Refusal::Stale, "some match, none finds it fresh"),
    (Refusal::NoSlot, "slot number too large or slot not in use"),
    (Refusal::Range, "range end not 0 and below its start"),
    (Refusal::FilterInUse, "a filter equal in every field is in use"),
    (Refusal::NoFreeSlot, "no free slot"),
    (Refusal::NotDue, "publication not due"),
    (Refusal::TargetTooShort, "target too short for the telegram"),
    (Refusal::DatasetTooLong, "dataset too long"),
    (Refusal::SessionInUse, "session identifier in use"),
    (Refusal::NoFreeSession, "no free session"),
    (Refusal::NoSession, "no session of that identifier can take this"),
    (Refusal::Uri, "URI field without a zero octet"),
    (Refusal::NotDescribed, "dataset id not described"),
    (Refusal::TooDeep, "nested deeper than 5"),
    (Refusal::Malformed, "description malformed, or over 4096 numbers"),
    (Refusal::Data, "data end early or are left over"),
    (Refusal::DataTargetTooShort, "target shorter than the data"),
];

impl Refusal {
    pub fn number(self) -> u8 {
        self as u8
    }

    /// The value where the library's number is 0, else the refusal.
    pub(crate) fn or<T>(number: u8, value: T) -> Result<T, Refusal> {
        match number {
            0 => Ok(value),
            _ => Err(REFUSALS[usize::from(number) - 1].0),
        }
    }
}

impl fmt::Display for Refusal {
    fn fmt(&self, f: &mut fmt::Formatter) -> fmt::Result {
        let number = self.number();
        write!(f, "refused {number}: {}", REFUSALS[usize::from(number) - 1].1)
    }
}

impl std::error::Error for Refusal {}

#[cfg(test)]
mod tests {
    use super::*;

    #[test]
    fn each_number_has_its_refusal() {
        for number in 1..=25 {
            assert_eq!(Refusal::or(number, ()).map_err(Refusal::number), Err(number));
        }
        assert_eq!(Refusal::or(0, 7), Ok(7));
    }
}
