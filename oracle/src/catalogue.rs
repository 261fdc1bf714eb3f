//! Small modules that have each kind of record with each of its handles in turn below, at and behind its limits.
use crate::layout::{fields, kinds, Cased, Field, Table, ABSENT};
use crate::writer::{handle_places, set_word, words, write, Choice};

const SCALAR: u8 = 16;
const LITERAL: u8 = 64;

/// What handles are given: some are below every limit, some at a limit, and some behind it.
const NUMBERS: [u32; 7] = [0, 1, 2, 3, 4, 1000, ABSENT - 1];

/// All fields at their least, and each case as it is chosen.
struct Least {
    case: usize,
}

impl Choice for Least {
    fn handle(&mut self, _: Table) -> u32 {
        0
    }

    fn optional(&mut self, _: Table) -> u32 {
        0
    }

    fn mark(&mut self) -> u32 {
        1
    }

    fn number(&mut self) -> u32 {
        1
    }

    fn flag(&mut self) -> bool {
        false
    }

    fn case(&mut self, cased: &Cased) -> usize {
        self.case.min(cased.cases.len() - 1)
    }
}

/// How many cases a kind has.
fn cases(kind: u8) -> usize {
    let fields = fields(kind).expect("the kind is one");
    let cases = fields.iter().map(|field| match field {
        Field::Cased(cased) => cased.cases.len(),
        _ => 1,
    });
    cases.max().unwrap_or(1)
}

/// A record of each kind and case, with all handles 0.
pub fn each_record() -> Vec<Vec<u8>> {
    let of_kind = |kind| (0..cases(kind)).map(move |case| write(kind, &mut Least { case }));
    kinds().flat_map(of_kind).collect()
}

/// The images of the catalogue.
pub fn images() -> Vec<Vec<u8>> {
    let mut images = Vec::new();
    for record in each_record() {
        images.extend(around(&record));
        for place in handle_places(&record) {
            for number in NUMBERS.into_iter().chain([ABSENT]) {
                let mut changed = record.clone();
                set_word(&mut changed, place, number);
                images.extend(around(&changed));
            }
        }
    }
    images.extend(ranges());
    images.extend(sizes());
    images
}

/// The images in which a record stands.
pub fn around(record: &[u8]) -> Vec<Vec<u8>> {
    let record = record.to_vec();
    match record[0] {
        1 => vec![module(vec![record, words(24, &[7, 4])], vec![])],
        2 => vec![
            module(vec![], in_function(vec![record.clone(), words(68, &[0])])),
            module(
                vec![],
                in_entry_point(vec![record.clone(), words(68, &[0])]),
            ),
            module(
                vec![],
                in_function(vec![record.clone(), words(144, &[0, ABSENT])]),
            ),
            module(vec![record, words(68, &[0])], vec![]),
        ],
        3..=9 | 16..=29 => vec![module(vec![record], vec![])],
        11 | 12 => vec![module(vec![], vec![record, vec![31]])],
        31 => vec![module(vec![], vec![words(11, &[1, ABSENT]), record])],
        64..=97 => vec![
            module(vec![record.clone()], vec![]),
            module(vec![], in_function(vec![record.clone()])),
            module(vec![], in_entry_point(vec![record])),
        ],
        _ => {
            let inner = statement(record);
            vec![
                module(vec![], in_function(inner.clone())),
                module(vec![], in_entry_point(inner)),
            ]
        }
    }
}

/// A record of a body with the brackets that it needs.
fn statement(record: Vec<u8>) -> Vec<Vec<u8>> {
    let end = || vec![151];
    match record[0] {
        129 => vec![record, end()],
        130 => vec![record, end(), end()],
        131 => vec![record, vec![154]],
        132 => vec![record, end(), words(152, &[ABSENT])],
        151 => vec![vec![129], record],
        152 => vec![vec![132], end(), record],
        153 => vec![words(131, &[0]), record, end(), vec![154]],
        154 => vec![words(131, &[0]), record],
        _ => vec![record],
    }
}

fn literal() -> Vec<u8> {
    words(LITERAL, &[42])
}

/// Three expressions and two local variables before the records, and an expression behind them.
fn in_body(opener: Vec<u8>, inner: Vec<Vec<u8>>) -> Vec<Vec<u8>> {
    let local = words(15, &[1, 0, ABSENT]);
    let mut records = vec![opener, local.clone(), local];
    records.extend((0..3).map(|_| literal()));
    records.extend(inner);
    records.extend([literal(), vec![31]]);
    records
}

/// In the second of three functions.
fn in_function(inner: Vec<Vec<u8>>) -> Vec<Vec<u8>> {
    let opener = words(11, &[1, ABSENT]);
    let empty = [opener.clone(), vec![31]];
    let mut records = empty.to_vec();
    records.extend(in_body(opener, inner));
    records.extend(empty);
    records
}

fn in_entry_point(inner: Vec<Vec<u8>>) -> Vec<Vec<u8>> {
    let mut opener = write(12, &mut Least { case: 0 });
    for place in handle_places(&opener) {
        set_word(&mut opener, place, ABSENT);
    }
    let empty = [words(11, &[1, ABSENT]), vec![31]];
    let mut records = empty.to_vec();
    records.extend(in_body(opener, inner));
    records.extend(empty);
    records
}

/// Two types and expressions and an item of each other table, then the records, then one more type and expression, then functions.
fn module(inner: Vec<Vec<u8>>, functions: Vec<Vec<u8>>) -> Vec<u8> {
    let scalar = |name| words(SCALAR, &[name, 1]);
    let mut records = vec![scalar(100), scalar(101), literal(), literal()];
    records.extend([
        words(4, &[1, 0, 0]),
        words(3, &[1, 1, 0, ABSENT]),
        words(5, &[1, 1, 1, 0, ABSENT, 1]),
        words(8, &[1, ABSENT]),
    ]);
    records.extend(inner);
    records.extend([scalar(102), literal()]);
    records.extend(functions);
    records.concat()
}

/// Ranges with each pair of ends around the number of expressions.
fn ranges() -> Vec<Vec<u8>> {
    let ends = [0, 1, 3, 4, 5, ABSENT - 1, ABSENT];
    let mut images = Vec::new();
    for start in ends {
        for end in ends {
            let emit = vec![words(128, &[start, end])];
            images.push(module(vec![], in_function(emit.clone())));
            images.push(module(vec![], in_entry_point(emit)));
        }
    }
    images
}

/// Arrays and binding arrays whose size is an override, with each init, type and returned type around its limits.
fn sizes() -> Vec<Vec<u8>> {
    let pending = [
        [&words(23, &[9, 0])[..], &[1, 0, 0, 0, 0], &[4, 0, 0, 0]].concat(),
        [&words(29, &[9, 0])[..], &[1, 0, 0, 0, 0]].concat(),
    ];
    let mut images = Vec::new();
    for array in &pending {
        for ty in 0..4 {
            for init in [0, 1, 2, 3, ABSENT] {
                for returned in 0..4 {
                    for kind in [67, 68] {
                        let records = [
                            words(SCALAR, &[100, 1]),
                            words(3, &[1, 1, ty, init]),
                            array.clone(),
                            words(kind, &[returned]),
                            words(66, &[0]),
                            words(kind, &[0]),
                            words(SCALAR, &[101, 1]),
                        ];
                        images.push(records.concat());
                    }
                }
            }
        }
    }
    images
}
