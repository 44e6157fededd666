//! The five numbers of an answer and the twelve bytes they stand in.

pub const REPLY_BYTES: usize = 12;

/// The codes of documents 01 and 02; a call answers the first one whose condition holds, as they are asked.
#[derive(Clone, Copy, PartialEq, Eq, Debug)]
pub enum Code {
    Accepted = 0,
    BufferSize = 1,
    Unsound = 2,
    Counts = 3,
    Site = 4,
    SameSite = 5,
    Key = 6,
    ClocksSpent = 7,
    NoRoom = 8,
    NothingNew = 9,
    CauseMissing = 10,
    BudgetSpent = 11,
    UnusedField = 12,
    NoRecord = 13,
    OutOfRange = 14,
    Changed = 15,
    Retired = 16,
    LastLiveSite = 17,
}

/// For drain, `clock` holds the deliveries and `value` the tries.
#[derive(Clone, Copy, PartialEq, Eq, Debug)]
pub struct Answer {
    pub code: Code,
    pub key: u8,
    pub site: u8,
    pub clock: u16,
    pub value: u32,
}

/// `Err` is a refusal.
pub type Outcome = Result<Answer, Answer>;

impl Answer {
    /// "In every refused answer the other numbers are 0"; 10 and 11 set theirs themselves.
    pub fn refused(code: Code) -> Answer {
        Answer { code, key: 0, site: 0, clock: 0, value: 0 }
    }

    pub fn accepted(key: u8, site: u8, clock: u16, value: u32) -> Answer {
        Answer { code: Code::Accepted, key, site, clock, value }
    }

    pub fn bytes(&self) -> [u8; REPLY_BYTES] {
        let [clock_high, clock_low] = self.clock.to_be_bytes();
        let [v0, v1, v2, v3] = self.value.to_be_bytes();
        [self.code as u8, self.key, self.site, 0, clock_high, clock_low, 0, 0, v0, v1, v2, v3]
    }
}

/// The answer of an outcome, refused or not.
pub fn told(outcome: Outcome) -> Answer {
    outcome.unwrap_or_else(|refusal| refusal)
}
