//! The library under test: its exported functions, called on an image.
use crate::decode::Memory;
use crate::verdict::{Verdict, Verdicts};

mod exported {
    use super::Walked;
    use crate::verdict::Verdict;

    extern "C" {
        pub fn dulvanos_check(image: *const u8, length: usize) -> Verdict;
        pub fn dulvanos_check_number(image: *const u8, length: usize) -> u32;
        pub fn dulvanos_check_kind(image: *const u8, length: usize) -> u32;
        pub fn dulvanos_check_first(image: *const u8, length: usize) -> usize;
        pub fn dulvanos_check_second(image: *const u8, length: usize) -> usize;
        pub fn dulvanos_check_position(image: *const u8, length: usize) -> usize;
        pub fn dulvanos_check_large(image: *const u8, length: usize, times: u32) -> Verdict;
        pub fn dulvanos_seal(image: *const u8, length: usize) -> Verdict;
        pub fn dulvanos_seal_number(image: *const u8, length: usize) -> u32;
        pub fn dulvanos_seal_kind(image: *const u8, length: usize) -> u32;
        pub fn dulvanos_seal_first(image: *const u8, length: usize) -> usize;
        pub fn dulvanos_seal_second(image: *const u8, length: usize) -> usize;
        pub fn dulvanos_seal_position(image: *const u8, length: usize) -> usize;
        pub fn dulvanos_seal_large(image: *const u8, length: usize, times: u32) -> Verdict;
        pub fn dulvanos_depth(
            image: *const u8,
            length: usize,
            table: u32,
            body: u32,
            values: *mut u32,
            places: usize,
        ) -> Walked;
        pub fn dulvanos_steady(
            image: *const u8,
            length: usize,
            table: u32,
            body: u32,
            values: *mut u8,
            places: usize,
        ) -> Walked;
        pub fn dulvanos_depth_large(
            image: *const u8,
            length: usize,
            table: u32,
            body: u32,
            values: *mut u32,
            places: usize,
        ) -> Walked;
        pub fn dulvanos_steady_large(
            image: *const u8,
            length: usize,
            table: u32,
            body: u32,
            values: *mut u8,
            places: usize,
        ) -> Walked;
    }
}

/// What a walk answers.
#[repr(C)]
#[derive(Clone, Copy, Debug, Default, PartialEq, Eq)]
pub struct Walked {
    pub verdict: Verdict,
    pub items: usize,
    pub takes: usize,
}

impl From<Verdict> for Walked {
    /// What is answered for an image, or a walk, that is refused.
    fn from(verdict: Verdict) -> Self {
        Walked {
            verdict,
            ..Walked::default()
        }
    }
}

/// The numbers of the tables that can be walked, and the first that is none.
pub mod table {
    pub const TYPES: u32 = 0;
    pub const FILTERS: u32 = 1;
    pub const FUNCTIONS: u32 = 2;
    pub const GLOBAL_EXPRESSIONS: u32 = 3;
    pub const FUNCTION_BODY: u32 = 4;
    pub const ENTRY_POINT_BODY: u32 = 5;
    pub const NO_TABLE: u32 = 6;
}

/// The table that a walk is asked for: its number, and that of the body.
#[derive(Clone, Copy, Debug)]
pub struct Table {
    pub number: u32,
    pub body: u32,
}

/// The stack that a thread needs that calls the library.
pub const STACK: usize = 64 << 20;

/// The verdicts of the library for an image.
pub fn verdicts(image: &[u8]) -> Verdicts {
    let (image, length) = (image.as_ptr(), image.len());
    // SAFETY: the pointer and the length are those of a slice, and the functions only read it.
    unsafe {
        Verdicts {
            check: exported::dulvanos_check(image, length),
            seal: exported::dulvanos_seal(image, length),
        }
    }
}

/// The same by the ten functions that answer one number each.
pub fn numbers(image: &[u8]) -> Verdicts {
    let (image, length) = (image.as_ptr(), image.len());
    // SAFETY: the pointer and the length are those of a slice, and the functions only read it.
    unsafe {
        Verdicts {
            check: Verdict {
                number: exported::dulvanos_check_number(image, length),
                kind: exported::dulvanos_check_kind(image, length),
                first: exported::dulvanos_check_first(image, length),
                second: exported::dulvanos_check_second(image, length),
                position: exported::dulvanos_check_position(image, length),
            },
            seal: Verdict {
                number: exported::dulvanos_seal_number(image, length),
                kind: exported::dulvanos_seal_kind(image, length),
                first: exported::dulvanos_seal_first(image, length),
                second: exported::dulvanos_seal_second(image, length),
                position: exported::dulvanos_seal_position(image, length),
            },
        }
    }
}

/// The verdicts with the larger memory, after so many times.
pub fn large(image: &[u8], times: u32) -> Verdicts {
    Verdicts {
        check: check_large(image, times),
        seal: seal_large(image, times),
    }
}

/// The verdict of the check with the larger memory, after so many times.
pub fn check_large(image: &[u8], times: u32) -> Verdict {
    // SAFETY: the pointer and the length are those of a slice, and the function only reads it.
    unsafe { exported::dulvanos_check_large(image.as_ptr(), image.len(), times) }
}

fn seal_large(image: &[u8], times: u32) -> Verdict {
    // SAFETY: the pointer and the length are those of a slice, and the function only reads it.
    unsafe { exported::dulvanos_seal_large(image.as_ptr(), image.len(), times) }
}

/// A function of the library that walks.
type Walk<V> = unsafe extern "C" fn(*const u8, usize, u32, u32, *mut V, usize) -> Walked;

/// What it answers, and writes into the values.
fn walk<V>(walk: Walk<V>, image: &[u8], table: Table, values: &mut [V]) -> Walked {
    let Table { number, body } = table;
    let (places, values) = (values.len(), values.as_mut_ptr());
    // SAFETY: the pointers and the lengths are those of two slices. The function only reads the first, and the second
    // is lent for writing.
    unsafe { walk(image.as_ptr(), image.len(), number, body, values, places) }
}

/// The depths of the items of a table, in so much memory.
pub fn depth(image: &[u8], memory: Memory, table: Table, values: &mut [u32]) -> Walked {
    match memory {
        Memory::LARGE => walk(exported::dulvanos_depth_large, image, table, values),
        _ => walk(exported::dulvanos_depth, image, table, values),
    }
}

/// Which items of a table are steady, by 1 and 0, in so much memory.
pub fn steady(image: &[u8], memory: Memory, table: Table, values: &mut [u8]) -> Walked {
    match memory {
        Memory::LARGE => walk(exported::dulvanos_steady_large, image, table, values),
        _ => walk(exported::dulvanos_steady, image, table, values),
    }
}
