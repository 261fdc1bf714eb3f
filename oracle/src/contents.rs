//! What the images have that are accepted, counted to see that acceptance says something.
use crate::image::Parts;
use std::collections::BTreeSet;

/// Records that the rules of sealing look at.
#[derive(Clone, Copy, PartialEq, Eq, PartialOrd, Ord)]
pub enum Content {
    Function,
    EntryPoint,
    PendingSize,
    Constant,
    Override,
    Compose,
    Call,
    Argument,
    ImageAtomic,
}

impl Content {
    pub const ALL: [Content; 9] = [
        Content::Function,
        Content::EntryPoint,
        Content::PendingSize,
        Content::Constant,
        Content::Override,
        Content::Compose,
        Content::Call,
        Content::Argument,
        Content::ImageAtomic,
    ];

    pub fn name(self) -> &'static str {
        match self {
            Content::Function => "function",
            Content::EntryPoint => "entry point",
            Content::PendingSize => "Pending",
            Content::Constant => "constant",
            Content::Override => "override",
            Content::Compose => "Compose",
            Content::Call => "Call",
            Content::Argument => "argument",
            Content::ImageAtomic => "ImageAtomic",
        }
    }

    /// What a well-formed image has.
    pub fn of(image: &[u8]) -> BTreeSet<Content> {
        Parts::new(image).filter_map(Content::of_record).collect()
    }

    fn of_record(record: &[u8]) -> Option<Content> {
        Some(match record[0] {
            3 => Content::Override,
            4 => Content::Constant,
            11 => Content::Function,
            12 => Content::EntryPoint,
            // The case byte of the size.
            23 | 29 if record[9] == 1 => Content::PendingSize,
            68 => Content::Compose,
            73 => Content::Argument,
            142 => Content::ImageAtomic,
            144 => Content::Call,
            _ => return None,
        })
    }
}
