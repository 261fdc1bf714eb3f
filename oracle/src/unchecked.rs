//! The words of records that the check leaves out and sealing tests, found without either, to give them other numbers.
use crate::layout::Table;
use crate::writer::{places, set_word};

/// The kinds of expressions that stand in bodies only.
pub const OF_BODIES: [u8; 4] = [73, 74, 75, 87];

/// Where the case byte of the size of an `Array` or a `BindingArray` stands, and two cases.
const SIZE: usize = 9;
const PENDING: u8 = 1;
const EXCHANGE: u8 = 7;

/// What a word is that only sealing tests.
#[derive(Clone, Copy, PartialEq, Eq)]
pub enum Sort {
    /// Of a global expression.
    Operand,
    /// Of an expression, by the number of types.
    Type,
    /// Of a constant, an override or a global expression, by the types whose size is an override.
    SizedType,
    Argument,
    Call,
    /// Of the special and predeclared types.
    Special,
    Payload,
    /// What an `ImageAtomic` compares with.
    Compared,
}

/// A word of a record that only sealing tests.
#[derive(Clone, Copy)]
pub struct Word {
    pub sort: Sort,
    pub record: usize,
    at: usize,
    /// The least number that may be refused.
    pub least: u32,
}

impl Word {
    /// Gives the word a number. What is compared with is there only in the case `Exchange`, which is then chosen.
    pub fn set(&self, records: &mut [Vec<u8>], number: u32) {
        let record = &mut records[self.record];
        if self.sort == Sort::Compared {
            record[self.at - 1] = EXCHANGE;
        }
        set_word(record, self.at, number);
    }
}

#[derive(Default)]
struct Body {
    opener: usize,
    arguments: u32,
    expressions: u32,
}

/// How many items a list of records has, and in which body each record stands.
#[derive(Default)]
pub struct Outline {
    body: Vec<Option<usize>>,
    bodies: Vec<Body>,
    types: u32,
    /// The types whose size is an override, by their numbers.
    pub sized: Vec<u32>,
    global_variables: u32,
}

impl Outline {
    pub fn of(records: &[Vec<u8>]) -> Outline {
        let mut outline = Outline::default();
        let mut open = None;
        for (at, record) in records.iter().enumerate() {
            if record[0] == 31 {
                open = None;
            }
            outline.body.push(open);
            match record[0] {
                5 => outline.global_variables += 1,
                16..=29 => {
                    if matches!(record[0], 23 | 29) && record[SIZE] == PENDING {
                        outline.sized.push(outline.types);
                    }
                    outline.types += 1;
                }
                11 | 12 => {
                    open = Some(outline.bodies.len());
                    outline.bodies.push(Body {
                        opener: at,
                        ..Body::default()
                    });
                }
                _ => {}
            }
            if let Some(body) = open {
                outline.bodies[body].arguments += u32::from(record[0] == 13);
                outline.bodies[body].expressions += u32::from((64..=97).contains(&record[0]));
            }
        }
        outline
    }

    /// The global expressions that take no operands that wait.
    pub fn plain_globals(&self, records: &[Vec<u8>]) -> Vec<usize> {
        let plain = |&at: &usize| {
            let kind = records[at][0];
            self.body[at].is_none() && kind != 68 && (64..=97).contains(&kind)
        };
        (0..records.len()).filter(plain).collect()
    }

    /// The words that only sealing tests.
    pub fn words(&self, records: &[Vec<u8>]) -> Vec<Word> {
        let mut words = Vec::new();
        let (mut functions, mut globals) = (0, 0);
        for (record, bytes) in records.iter().enumerate() {
            let mut add = |sort, at, least| {
                words.push(Word {
                    sort,
                    record,
                    at,
                    least,
                });
            };
            let kind = bytes[0];
            if matches!(kind, 67 | 68 | 88 | 89 | 95) {
                add(Sort::Type, 1, self.types);
            }
            match self.body[record] {
                None => match kind {
                    3 | 4 => {
                        if let Some(&sized) = self.sized.first() {
                            add(Sort::SizedType, if kind == 3 { 9 } else { 5 }, sized);
                        }
                    }
                    6 => {
                        add(Sort::Special, 13, self.types);
                        add(Sort::Special, 17, self.types);
                    }
                    7 => add(Sort::Special, 5, self.types),
                    11 => functions += 1,
                    12 => add(Sort::Payload, bytes.len() - 4, self.global_variables),
                    64..=97 => {
                        if let (67 | 68 | 88 | 89 | 95, Some(&sized)) = (kind, self.sized.first()) {
                            add(Sort::SizedType, 1, sized);
                        }
                        for place in places(bytes) {
                            if place.table == Table::Expression {
                                add(Sort::Operand, place.at, globals);
                            }
                        }
                        globals += 1;
                    }
                    _ => {}
                },
                Some(body) => {
                    let body = &self.bodies[body];
                    match kind {
                        73 => add(Sort::Argument, 1, body.arguments),
                        142 => add(Sort::Compared, 14, body.expressions),
                        144 if records[body.opener][0] == 11 => add(Sort::Call, 1, functions - 1),
                        _ => {}
                    }
                }
            }
        }
        words
    }
}
