//! Modules of a given size that pass, for measuring.
use crate::layout::ABSENT;
use crate::writer::words;
use std::collections::VecDeque;

/// How the records of a sample are mixed.
#[derive(Clone, Copy)]
pub enum Order {
    /// Nearly all records stand in bodies: few types, and no global expression that names a constant or an override.
    Bodies,
    /// Table by table; in a body its expressions, then its statements.
    Grouped,
    /// The same records, with the tables mixed, and expressions and statements mixed in each body.
    Interleaved,
}

impl Order {
    pub fn name(self) -> &'static str {
        match self {
            Order::Bodies => "bodies",
            Order::Grouped => "grouped",
            Order::Interleaved => "interleaved",
        }
    }
}

type Chunk = Vec<Vec<u8>>;

/// The records of a module of about so many.
pub fn sample(size: usize, order: Order) -> Vec<Vec<u8>> {
    let part = |per_thousand: usize| match order {
        Order::Bodies => 3,
        _ => (size * per_thousand / 1000).max(3),
    };
    let counts = Counts {
        types: part(20),
        constants: part(10),
        overrides: part(5),
        global_variables: part(10),
        expressions: part(40),
        filters: part(2),
        lookups: !matches!(order, Order::Bodies),
    };
    let mut lists = counts.module();
    let so_far: usize = lists.iter().flatten().map(Vec::len).sum();
    let mut left = size.saturating_sub(so_far);
    let mut bodies = Vec::new();
    while left > 35 || bodies.is_empty() {
        let body = body(bodies.len(), &counts, order);
        left = left.saturating_sub(body.len());
        bodies.push(body);
    }
    lists.push(bodies);
    match order {
        Order::Interleaved => mix(lists),
        _ => lists.into_iter().flatten().flatten().collect(),
    }
}

struct Counts {
    types: usize,
    constants: usize,
    overrides: usize,
    global_variables: usize,
    expressions: usize,
    filters: usize,
    /// Whether global expressions name constants and overrides.
    lookups: bool,
}

impl Counts {
    /// The tables of the module but for functions.
    fn module(&self) -> Vec<Vec<Chunk>> {
        let list = |count: usize, chunk: &dyn Fn(u32) -> Chunk| {
            (0..count as u32).map(chunk).collect::<Vec<Chunk>>()
        };
        let any_type = |number: u32| number % self.types as u32;
        vec![
            list(self.types, &ty),
            list(self.overrides, &|n| {
                vec![words(3, &[n, n, any_type(n), ABSENT])]
            }),
            list(self.constants, &|n| vec![words(4, &[n, any_type(n), 0])]),
            list(self.global_variables, &|n| {
                vec![words(5, &[n, 1, n, any_type(n), ABSENT, 0])]
            }),
            list(self.expressions, &|n| self.global_expression(n)),
            list(self.filters, &|n| {
                vec![words(8, &[n, n.checked_sub(1).unwrap_or(ABSENT)])]
            }),
        ]
    }

    fn global_expression(&self, number: u32) -> Chunk {
        let looks = self.lookups && number > 0;
        match number % 5 {
            1 if looks => vec![words(65, &[number % self.constants as u32])],
            2 if looks => vec![words(66, &[number % self.overrides as u32])],
            3 => vec![words(67, &[number % self.types as u32])],
            4 => vec![
                words(2, &[number - 1]),
                words(2, &[number - 2]),
                words(68, &[number % self.types as u32]),
            ],
            _ => vec![words(64, &[number])],
        }
    }
}

/// A type that differs from all others by its name.
fn ty(number: u32) -> Chunk {
    match (number, number % 5) {
        (0, _) | (_, 0) => vec![words(16, &[number, 1])],
        (_, 1) => vec![words(17, &[number, 3, 1])],
        (_, 2) => vec![words(21, &[number, number - 1, 1])],
        (_, 3) => vec![[
            &words(23, &[number, number - 1])[..],
            &[0, 16, 0, 0, 0],
            &[4, 0, 0, 0],
        ]
        .concat()],
        _ => vec![
            words(1, &[1, number - 1, 0, 0]),
            words(1, &[2, number - 2, 0, 4]),
            words(24, &[number, 16]),
        ],
    }
}

/// A function of 71 records.
fn body(number: usize, counts: &Counts, order: Order) -> Chunk {
    let number = number as u32;
    let any_type = number % counts.types as u32;
    let header = vec![
        vec![words(13, &[1, any_type, 1])],
        vec![words(13, &[2, any_type, 1])],
        vec![words(14, &[any_type, 1])],
        vec![words(15, &[1, any_type, ABSENT])],
        vec![words(15, &[2, any_type, 0])],
        vec![words(30, &[5, 7])],
    ];
    let values = expressions(number, counts);
    let count = values.len() as u32;
    let lists = vec![header, values, statements(number, count)];
    let mut records = vec![words(11, &[number, ABSENT])];
    records.extend(match order {
        Order::Interleaved => mix(lists),
        _ => lists.into_iter().flatten().flatten().collect(),
    });
    records.push(vec![31]);
    records
}

fn expressions(number: u32, counts: &Counts) -> Vec<Chunk> {
    let sample = [
        &words(77, &[0, 1, ABSENT, 2, ABSENT, 3])[..],
        &[4],
        &[5, 0, 0, 0, 6, 0, 0, 0],
        &[0xFF; 4],
        &[0],
    ]
    .concat();
    let mut values = vec![
        vec![words(64, &[1])],
        vec![words(73, &[0])],
        vec![words(73, &[1])],
        vec![words(75, &[0])],
        vec![words(75, &[1])],
        vec![words(74, &[number % counts.global_variables as u32])],
        vec![words(65, &[number % counts.constants as u32])],
        vec![words(67, &[number % counts.types as u32])],
        vec![
            words(2, &[0]),
            words(2, &[1]),
            words(68, &[number % counts.types as u32]),
        ],
        vec![sample],
    ];
    while values.len() < 32 {
        values.push(vec![value(values.len() as u32 - 1)]);
    }
    values
}

/// An expression that takes the last one before it, and others.
fn value(last: u32) -> Vec<u8> {
    match last % 7 {
        0 => words(76, &[last]),
        1 => words(80, &[1, last]),
        2 | 3 => words(81, &[1, last, last / 2]),
        4 => words(69, &[last, 0]),
        5 => words(85, &[1, last, last - 1, ABSENT, ABSENT]),
        _ => words(82, &[last, last - 1, last - 2]),
    }
}

/// So many expressions, global ones.
pub fn long_table(count: usize) -> Vec<u8> {
    let literals = [0, 1, 2].map(|mark| words(64, &[mark]));
    let values = (3..count as u32).map(|number| value(number - 1));
    literals.into_iter().chain(values).flatten().collect()
}

/// A function with so many expressions.
pub fn long_body(count: usize) -> Vec<u8> {
    [words(11, &[1, ABSENT]), long_table(count), vec![31]].concat()
}

fn statements(number: u32, count: u32) -> Vec<Chunk> {
    let emit = |from: u32| vec![words(128, &[from, (from + 3).min(count)])];
    let store = |value: u32| vec![words(139, &[3, value % count])];
    let end = || vec![vec![151]];
    let called = number.saturating_sub(1);
    vec![
        emit(7),
        store(8),
        vec![words(130, &[0])],
        emit(10),
        store(10),
        vec![vec![132]],
        emit(13),
        store(14),
        vec![words(130, &[12])],
        vec![vec![133]],
        end(),
        end(),
        end(),
        store(16),
        vec![words(152, &[15])],
        end(),
        vec![words(135, &[20])],
        end(),
        vec![words(131, &[1])],
        vec![[&words(153, &[1])[..], &[0]].concat()],
        store(21),
        end(),
        vec![[&words(153, &[2])[..], &[0]].concat()],
        vec![
            words(2, &[1]),
            words(2, &[2]),
            words(144, &[called, ABSENT]),
        ],
        end(),
        vec![vec![154]],
        vec![words(135, &[31])],
    ]
}

/// The chunks of lists mixed evenly: the next chunk comes from the list of which the greatest share is left.
fn mix(lists: Vec<Vec<Chunk>>) -> Vec<Vec<u8>> {
    let mut lists: Vec<(usize, VecDeque<Chunk>)> = lists
        .into_iter()
        .map(|list| (list.len(), VecDeque::from(list)))
        .collect();
    let mut mixed = Vec::new();
    loop {
        let share =
            |(whole, rest): &(usize, VecDeque<Chunk>)| rest.len() * 1_000_000 / whole.max(&1);
        let fullest = lists.iter().enumerate().max_by_key(|(_, list)| share(list));
        let Some(fullest) = fullest.map(|(at, _)| at) else {
            return mixed;
        };
        match lists[fullest].1.pop_front() {
            Some(chunk) => mixed.extend(chunk),
            None => drop(lists.remove(fullest)),
        }
    }
}
