//! What a call answers: how much it wrote, or why it refused and where.

/// The refusal numbers. 9 is nobody's.
pub mod number {
    pub const MODE: u32 = 1;
    pub const BROKEN: u32 = 2;
    pub const TAG: u32 = 3;
    pub const SIZE: u32 = 4;
    pub const FIELD: u32 = 5;
    pub const WIRING: u32 = 6;
    pub const ENDS: u32 = 7;
    pub const LATE: u32 = 8;
    pub const ROOM: u32 = 10;
    pub const RESULT: u32 = 11;
}

/// Why a call refused, and the place that goes with the reason.
#[derive(Clone, Copy, Debug, PartialEq, Eq)]
pub struct Refusal {
    pub number: u32,
    pub place: usize,
}

impl Refusal {
    pub fn new(number: u32, place: usize) -> Refusal {
        Refusal { number, place }
    }
}

/// Success counts the numbers or bytes written.
pub type Answer = Result<usize, Refusal>;

/// The answer as the one number which a call returns to C.
pub fn packed(answer: Answer) -> u64 {
    let (number, place) = match answer {
        Ok(written) => (0, written),
        Err(refusal) => (refusal.number, refusal.place),
    };
    (u64::from(number) << 32) + place as u64
}

/// ROOM, unless what is there suffices.
pub(crate) fn need_room(needed: usize, there: usize) -> Result<(), Refusal> {
    if there < needed {
        return Err(Refusal::new(number::ROOM, needed));
    }
    Ok(())
}
