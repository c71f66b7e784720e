//! The numbers a call may refuse with.

#[derive(Clone, Copy, Debug, PartialEq, Eq)]
pub enum Refusal {
    /// more than 32 slots, or store not 1432 octets a slot; the record read is in use and says over 1432
    Lent = 1,
    /// shorter than the header
    Short = 2,
    /// frame check differs
    FrameCheck = 3,
    /// version's high octet is not 1
    Version = 4,
    /// type not of this family
    Type = 5,
    /// datasetLength over its limit, or datagram length not header plus padded dataset
    Length = 6,
    /// topography
    Topography = 7,
    /// no subscription or listener matches
    NoMatch = 8,
    /// some match, none finds it fresh
    Stale = 9,
    /// slot number too large or slot not in use
    NoSlot = 10,
    /// range end not 0 and below its start
    Range = 11,
    /// a filter equal in every field is in use
    Equal = 12,
    /// no free slot
    Full = 13,
    /// publication not due
    NotDue = 14,
    /// target too short
    Room = 15,
    /// dataset too long
    TooLong = 16,
    /// session identifier in use
    SessionInUse = 17,
    /// no free session
    NoFreeSession = 18,
    /// no session of that identifier can take this
    NoSession = 19,
    /// URI field without a zero octet
    Uri = 20,
    /// dataset id not described
    NotDescribed = 21,
    /// nested deeper than 5
    TooDeep = 22,
    /// description malformed, or over 4,096 numbers
    Malformed = 23,
    /// data end early or are left over
    Data = 24,
    /// target shorter than the data
    Target = 25,
}

impl Refusal {
    pub fn number(self) -> u8 {
        self as u8
    }
}

/// Refuses with `refusal` where `wrong` holds.
pub fn refuse_if(wrong: bool, refusal: Refusal) -> Result<(), Refusal> {
    if wrong {
        Err(refusal)
    } else {
        Ok(())
    }
}
