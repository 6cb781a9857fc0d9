//! "Numbers a call can answer".

#[derive(Clone, Copy, PartialEq, Eq, Debug)]
#[repr(u32)]
pub enum Answer {
    Done = 0,
    SizeMismatch = 1,
    InvalidValue = 2,
    WorkTooShort = 3,
    BrokenFat = 4,
    NotAFile = 5,
    NoSpace = 6,
    OutOfBound = 7,
    ListTooShort = 8,
    BrokenTree = 9,
    NotFound = 10,
    AlreadyExist = 11,
    Busy = 12,
    DeletingRoot = 13,
    NotEmpty = 14,
    IntoItself = 15,
    NotOpen = 16,
    TooManyOpens = 17,
    ReadOnlyVolume = 20,
}

impl Answer {
    pub fn number(self) -> u32 {
        self as u32
    }
}

/// What a call gives: the answer fields of Done, or the refusal. A refusal has no fields, so all of them are 0.
pub type Outcome<T> = Result<T, Answer>;

/// The row of the table that applies when `when` holds: reads as one line of the order, RULES 2.2.
pub fn refuse(when: bool, with: Answer) -> Outcome<()> {
    if when {
        Err(with)
    } else {
        Ok(())
    }
}

/// The number of an outcome, whatever its fields.
pub fn number<T>(outcome: &Outcome<T>) -> u32 {
    match outcome {
        Ok(_) => Answer::Done.number(),
        Err(refusal) => refusal.number(),
    }
}
