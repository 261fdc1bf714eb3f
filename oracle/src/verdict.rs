//! What a checker answers for an image: five numbers.
use std::fmt;

/// A refusal by its number, with the fault where it is one of the check; all 0 where the image passes.
#[repr(C)]
#[derive(Clone, Copy, Debug, Default, PartialEq, Eq)]
pub struct Verdict {
    pub number: u32,
    pub kind: u32,
    pub first: usize,
    pub second: usize,
    pub position: usize,
}

impl Verdict {
    pub fn refused(number: u32) -> Self {
        Verdict {
            number,
            ..Verdict::default()
        }
    }

    /// The same without the position, which naga's errors do not have.
    pub fn fault(self) -> Fault {
        Fault {
            number: self.number,
            kind: self.kind,
            first: self.first,
            second: self.second,
        }
    }
}

/// What the check and sealing answer for one image.
#[derive(Clone, Copy, Debug, PartialEq, Eq)]
pub struct Verdicts {
    pub check: Verdict,
    pub seal: Verdict,
}

impl Verdicts {
    /// The same from both, as of a refusal of put.
    pub fn both(verdict: Verdict) -> Self {
        Verdicts {
            check: verdict,
            seal: verdict,
        }
    }

    /// Whether sealing accepts.
    pub fn accepts(&self) -> bool {
        self.seal == Verdict::default()
    }
}

/// The five numbers of the check and then those of sealing.
impl fmt::Display for Verdicts {
    fn fmt(&self, f: &mut fmt::Formatter<'_>) -> fmt::Result {
        write!(f, "{} {}", self.check, self.seal)
    }
}

impl fmt::Display for Verdict {
    fn fmt(&self, f: &mut fmt::Formatter<'_>) -> fmt::Result {
        write!(f, "{} {}", self.fault(), self.position)
    }
}

/// The four numbers that naga's errors say.
#[derive(Clone, Copy, Debug, Default, PartialEq, Eq)]
pub struct Fault {
    pub number: u32,
    pub kind: u32,
    pub first: usize,
    pub second: usize,
}

impl Fault {
    pub fn at(self, position: usize) -> Verdict {
        Verdict {
            number: self.number,
            kind: self.kind,
            first: self.first,
            second: self.second,
            position,
        }
    }
}

impl fmt::Display for Fault {
    fn fmt(&self, f: &mut fmt::Formatter<'_>) -> fmt::Result {
        let Fault {
            number,
            kind,
            first,
            second,
        } = self;
        write!(f, "{number} {kind} {first} {second}")
    }
}

pub const INSIDE: u32 = 8;
pub const EARLIER: u32 = 9;
pub const RANGE: u32 = 10;
pub const UNFINISHED: u32 = 7;

/// The refusals of sealing.
pub mod sealing {
    pub const PLACED: u32 = 11;
    pub const INSIDE: u32 = 12;
    pub const EARLIER: u32 = 13;
}

/// The refusals of a walk.
pub mod walking {
    pub const NO_SUCH_BODY: u32 = 14;
    pub const TOO_FEW_PLACES: u32 = 15;
}

/// What the numbers of a fault count.
pub mod kind {
    pub const TYPE: u32 = 1;
    pub const CONSTANT: u32 = 2;
    pub const OVERRIDE: u32 = 3;
    pub const GLOBAL_VARIABLE: u32 = 4;
    pub const LOCAL_VARIABLE: u32 = 5;
    pub const EXPRESSION: u32 = 6;
    pub const FUNCTION: u32 = 7;
    pub const ARGUMENT: u32 = 8;
    pub const FILTER_NODE: u32 = 9;

    /// The kind that stands for naga's type of this name.
    pub fn of_name(name: &str) -> u32 {
        match name.rsplit("::").next() {
            Some("Type") => TYPE,
            Some("Constant") => CONSTANT,
            Some("Override") => OVERRIDE,
            Some("GlobalVariable") => GLOBAL_VARIABLE,
            Some("LocalVariable") => LOCAL_VARIABLE,
            Some("Expression") => EXPRESSION,
            Some("Function") => FUNCTION,
            Some("DiagnosticFilterNode") => FILTER_NODE,
            _ => panic!("naga tests no handles of {name}"),
        }
    }
}
