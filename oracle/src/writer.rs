//! Records written field by field. What the fields hold is chosen elsewhere.
use crate::layout::{fields, Cased, Field, Table, ABSENT};

/// What the fields of a record hold.
pub trait Choice {
    fn handle(&mut self, table: Table) -> u32;

    /// `ABSENT` for an absent handle.
    fn optional(&mut self, table: Table) -> u32;

    fn mark(&mut self) -> u32;

    fn number(&mut self) -> u32;

    fn flag(&mut self) -> bool;

    /// The byte of a case.
    fn case(&mut self, cased: &Cased) -> usize;
}

/// A record of a kind.
pub fn write(kind: u8, choice: &mut impl Choice) -> Vec<u8> {
    let mut record = vec![kind];
    for field in fields(kind).expect("only records of kinds are written") {
        write_field(field, choice, &mut record);
    }
    record
}

fn write_field(field: &Field, choice: &mut impl Choice, record: &mut Vec<u8>) {
    let word = match *field {
        Field::Mark => choice.mark(),
        Field::Number => choice.number(),
        Field::NonZero => choice.number().max(1),
        Field::Handle(table) => choice.handle(table),
        Field::Optional(table) => choice.optional(table),
        Field::Flag => {
            record.push(choice.flag().into());
            return;
        }
        Field::Cased(cased) => {
            write_cased(cased, choice, record);
            return;
        }
    };
    record.extend(word.to_le_bytes());
}

fn write_cased(cased: &Cased, choice: &mut impl Choice, record: &mut Vec<u8>) {
    let case = choice.case(cased);
    record.push(case as u8);
    let words = cased.cases[case];
    for word in words {
        write_field(word, choice, record);
    }
    for _ in words.len()..cased.width {
        record.extend(ABSENT.to_le_bytes());
    }
}

/// A record of a kind with these words in its fields, which are no flags and not cased.
pub fn words(kind: u8, words: &[u32]) -> Vec<u8> {
    let mut record = vec![kind];
    for word in words {
        record.extend(word.to_le_bytes());
    }
    record
}

/// A word of a record that can hold a handle of a table, and where it begins.
#[derive(Clone, Copy)]
pub struct Place {
    pub table: Table,
    pub at: usize,
}

/// The words of a well-formed record that can hold a handle, absent ones too, in order of declaration.
pub fn places(record: &[u8]) -> Vec<Place> {
    let mut places = Vec::new();
    let mut at = 1;
    for field in fields(record[0]).expect("the record has a kind") {
        match *field {
            Field::Flag => at += 1,
            Field::Cased(cased) => {
                let mut word = at + 1;
                for field in cased.cases[usize::from(record[at])] {
                    places.extend(place(field, word));
                    word += 4;
                }
                at += 1 + 4 * cased.width;
            }
            _ => {
                places.extend(place(field, at));
                at += 4;
            }
        }
    }
    places
}

fn place(field: &Field, at: usize) -> Option<Place> {
    match *field {
        Field::Handle(table) | Field::Optional(table) => Some(Place { table, at }),
        _ => None,
    }
}

/// Where those words begin.
pub fn handle_places(record: &[u8]) -> Vec<usize> {
    places(record).iter().map(|place| place.at).collect()
}

/// The case bytes of a well-formed record.
pub fn case_bytes(record: &[u8]) -> Vec<u8> {
    let mut cases = Vec::new();
    let mut at = 1;
    for field in fields(record[0]).expect("the record has a kind") {
        match *field {
            Field::Flag => at += 1,
            Field::Cased(cased) => {
                cases.push(record[at]);
                at += 1 + 4 * cased.width;
            }
            _ => at += 4,
        }
    }
    cases
}

/// The word of a record that begins at a place.
pub fn word(record: &[u8], at: usize) -> u32 {
    u32::from_le_bytes(record[at..at + 4].try_into().expect("four bytes"))
}

/// Writes a word into a record.
pub fn set_word(record: &mut [u8], at: usize, word: u32) {
    record[at..at + 4].copy_from_slice(&word.to_le_bytes());
}
