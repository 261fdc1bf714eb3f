//! The refusals of put, by their numbers.

#[derive(Clone, Copy, Debug, PartialEq, Eq)]
pub enum Refusal {
    NoSuchKind = 1,
    WrongLength = 2,
    BadField = 3,
    Misplaced = 4,
    TooDeep = 5,
    Full = 6,
}

impl Refusal {
    pub fn number(self) -> u32 {
        self as u32
    }
}
