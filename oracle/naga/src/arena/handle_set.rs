//! Stands for naga's `HandleSet`, which the handle check does not use.
use super::Range;

pub struct HandleSet;

impl<T> Range<T> {
    /// The range with these ends, whatever they are. Only a module of `arena` can make one that is not inside.
    pub fn of_ends(start: u32, end: u32) -> Self {
        let mut range = Range::full_range_from_size(0);
        range.inner = start..end;
        range
    }
}
