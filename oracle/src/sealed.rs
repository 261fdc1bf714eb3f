//! What must hold of an image that sealing accepts, tested on its records and the layout of their fields, and on neither
//! naga's module nor the tests of sealing.
use crate::image::Parts;
use crate::layout::{Table, ABSENT};
use crate::writer::{places, word};
use std::collections::HashMap;
use std::fmt;

/// What does not hold.
#[derive(Debug, PartialEq, Eq)]
pub enum Flaw {
    /// A handle that names no item.
    Outside {
        record: usize,
        table: Table,
        number: u32,
    },
    /// A range that is neither empty nor inside.
    Emitted { record: usize, end: u32 },
    /// The number of an argument that the body does not have.
    Argument { record: usize, number: u32 },
    /// So many types, overrides, constants and global expressions name each other in a circle or depend on such.
    Circle { items: usize },
}

impl fmt::Display for Flaw {
    fn fmt(&self, f: &mut fmt::Formatter<'_>) -> fmt::Result {
        match self {
            Flaw::Outside {
                record,
                table,
                number,
            } => write!(f, "record {record}: no {table:?} {number}"),
            Flaw::Emitted { record, end } => write!(f, "record {record}: emits up to {end}"),
            Flaw::Argument { record, number } => write!(f, "record {record}: no argument {number}"),
            Flaw::Circle { items } => write!(f, "{items} items in circles"),
        }
    }
}

/// The first flaw of an image whose records put accepts and none of which is left waiting.
pub fn flaw(image: &[u8]) -> Option<Flaw> {
    let records: Vec<&[u8]> = Parts::new(image).collect();
    let survey = Survey::of(&records);
    survey
        .flaw_of_records(&records)
        .or_else(|| survey.graph(&records).flaw())
}

/// The tables of the module among which items depend on each other.
const DEPENDENT: [Table; 4] = [
    Table::Type,
    Table::Override,
    Table::Constant,
    Table::Expression,
];

/// How many items the tables have that a body has by itself.
#[derive(Default)]
struct Body {
    expressions: u32,
    local_variables: u32,
    arguments: u32,
}

/// What a first pass finds of the records.
#[derive(Default)]
struct Survey {
    /// The body in which each record stands. The records that open and close one stand outside.
    body: Vec<Option<usize>>,
    /// The number of the item that each record outside of bodies adds, or that an equal earlier type has.
    item: Vec<Option<(Table, u32)>>,
    /// Whether a later record replaces this one.
    replaced: Vec<bool>,
    bodies: Vec<Body>,
    /// How many items each table of the module has.
    module: HashMap<Table, u32>,
}

/// The first pass.
#[derive(Default)]
struct Surveyor {
    survey: Survey,
    /// The bytes of each type and of its members, with its number.
    types: HashMap<Vec<u8>, u32>,
    /// The members that wait.
    members: Vec<u8>,
    /// Of the records that replace each other in a body or outside, the last.
    last: HashMap<(Option<usize>, u8), usize>,
    open: Option<usize>,
}

impl Surveyor {
    fn meet(&mut self, at: usize, record: &[u8]) {
        let kind = record[0];
        if kind == 31 {
            self.open = None;
        }
        let item = match self.open {
            Some(body) => {
                self.survey.bodies[body].count(kind);
                None
            }
            None => self.item(record),
        };
        self.survey.body.push(self.open);
        self.survey.item.push(item);
        self.survey.replaced.push(false);
        if matches!(kind, 6 | 9 | 14) {
            if let Some(earlier) = self.last.insert((self.open, kind), at) {
                self.survey.replaced[earlier] = true;
            }
        }
        if matches!(kind, 11 | 12) {
            self.open = Some(self.survey.bodies.len());
            self.survey.bodies.push(Body::default());
        }
    }

    /// The item that a record outside of bodies adds.
    fn item(&mut self, record: &[u8]) -> Option<(Table, u32)> {
        match record[0] {
            1 => {
                self.members.extend_from_slice(record);
                None
            }
            16..=29 => {
                let mut whole = std::mem::take(&mut self.members);
                whole.extend_from_slice(record);
                let next = self.types.len() as u32;
                let number = *self.types.entry(whole).or_insert(next);
                let count = self.types.len() as u32;
                self.survey.module.insert(Table::Type, count);
                Some((Table::Type, number))
            }
            kind => {
                let table = table_of(kind)?;
                let count = self.survey.module.entry(table).or_default();
                *count += 1;
                Some((table, *count - 1))
            }
        }
    }
}

impl Survey {
    fn of(records: &[&[u8]]) -> Survey {
        let mut surveyor = Surveyor::default();
        for (at, record) in records.iter().enumerate() {
            surveyor.meet(at, record);
        }
        surveyor.survey
    }

    /// How many items a table has, seen from a record.
    fn count(&self, record: usize, table: Table) -> u32 {
        match (self.body[record], table) {
            (Some(body), Table::Expression) => self.bodies[body].expressions,
            (Some(body), Table::LocalVariable) => self.bodies[body].local_variables,
            _ => self.module.get(&table).copied().unwrap_or(0),
        }
    }

    fn flaw_of_records(&self, records: &[&[u8]]) -> Option<Flaw> {
        let of_part = |(at, record): (usize, &&[u8])| {
            if self.replaced[at] {
                return None;
            }
            self.flaw_of_handles(at, record)
                .or_else(|| self.flaw_of_numbers(at, record))
        };
        records.iter().enumerate().find_map(of_part)
    }

    fn flaw_of_handles(&self, record: usize, bytes: &[u8]) -> Option<Flaw> {
        let outside = |&(table, number): &(Table, u32)| number >= self.count(record, table);
        let (table, number) = handles(bytes).into_iter().find(outside)?;
        Some(Flaw::Outside {
            record,
            table,
            number,
        })
    }

    /// The flaw of an `Emit` or of a `FunctionArgument`.
    fn flaw_of_numbers(&self, record: usize, bytes: &[u8]) -> Option<Flaw> {
        let body = self.body[record].map(|body| &self.bodies[body]);
        match bytes[0] {
            128 => {
                let (start, end) = (word(bytes, 1), word(bytes, 5));
                let count = body.map_or(0, |body| body.expressions);
                let inside = start == end || start < end && end <= count;
                (!inside).then_some(Flaw::Emitted { record, end })
            }
            73 => {
                let number = word(bytes, 1);
                let count = body.map_or(0, |body| body.arguments);
                (number >= count).then_some(Flaw::Argument { record, number })
            }
            _ => None,
        }
    }

    /// What the items of the dependent tables name. All handles are inside.
    fn graph(&self, records: &[&[u8]]) -> Graph {
        let mut first = HashMap::new();
        let mut items = 0;
        for table in DEPENDENT {
            first.insert(table, items);
            items += self.module.get(&table).copied().unwrap_or(0) as usize;
        }
        let node = |(table, number): (Table, u32)| Some(first.get(&table)? + number as usize);
        let mut named = vec![Vec::new(); items];
        let mut taken = Vec::new();
        for (at, record) in records.iter().enumerate() {
            if self.body[at].is_some() {
                continue;
            }
            let of_record = handles(record).into_iter().filter_map(node);
            match record[0] {
                1 | 2 => taken.extend(of_record),
                _ => {
                    if let Some(item) = self.item[at].and_then(node) {
                        named[item] = taken.drain(..).chain(of_record).collect();
                    }
                }
            }
        }
        Graph { named }
    }
}

impl Body {
    fn count(&mut self, kind: u8) {
        match kind {
            13 => self.arguments += 1,
            15 => self.local_variables += 1,
            64..=97 => self.expressions += 1,
            _ => {}
        }
    }
}

/// The table of the module that a record outside of bodies adds an item to, but for types.
fn table_of(kind: u8) -> Option<Table> {
    match kind {
        3 => Some(Table::Override),
        4 => Some(Table::Constant),
        5 => Some(Table::GlobalVariable),
        8 => Some(Table::Filter),
        11 => Some(Table::Function),
        64..=97 => Some(Table::Expression),
        _ => None,
    }
}

/// The handles of a record with their tables.
fn handles(record: &[u8]) -> Vec<(Table, u32)> {
    let all = places(record).into_iter();
    all.map(|place| (place.table, word(record, place.at)))
        .filter(|&(_, number)| number != ABSENT)
        .collect()
}

/// What each item names, by the numbers of items in all tables together.
struct Graph {
    named: Vec<Vec<usize>>,
}

impl Graph {
    /// Takes away items that nothing is left to name, as long as there are some (Kahn's algorithm).
    fn flaw(&self) -> Option<Flaw> {
        let mut naming = vec![0; self.named.len()];
        for &item in self.named.iter().flatten() {
            naming[item] += 1;
        }
        let mut free: Vec<usize> = (0..naming.len()).filter(|&it| naming[it] == 0).collect();
        let mut left = self.named.len();
        while let Some(item) = free.pop() {
            left -= 1;
            for &named in &self.named[item] {
                naming[named] -= 1;
                if naming[named] == 0 {
                    free.push(named);
                }
            }
        }
        (left > 0).then_some(Flaw::Circle { items: left })
    }
}
