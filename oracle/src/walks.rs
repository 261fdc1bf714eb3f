//! The walks of the library, held against the readings over naga's module: what is answered, and what is left in the
//! values.
use crate::decode::Memory;
use crate::jobs::{self, Outcome};
use crate::library::table::{
    ENTRY_POINT_BODY, FILTERS, FUNCTIONS, FUNCTION_BODY, GLOBAL_EXPRESSIONS, NO_TABLE, TYPES,
};
use crate::library::{self, Table, Walked};
use crate::readings::{depths, steady, takes, Node};
use crate::report::{self, greatest, sums};
use crate::source::Source;
use crate::verdict::walking::{NO_SUCH_BODY, TOO_FEW_PLACES};
use crate::verdict::Verdict;
use crate::{hexadecimal, reference};
use naga::{Handle, Module};
use std::fmt;

/// The tables by their numbers.
const TABLES: [&str; 6] = [
    "types",
    "filters",
    "functions",
    "global",
    "in functions",
    "in entries",
];

/// Of how many functions, and of how many entry points, of a module the bodies are walked: the last ones.
const BODIES: usize = 40;

/// How often an accepted image is walked in the larger memory: once in so many images.
const LARGE_EACH: u64 = 16;

/// A value that the library writes: the depth of an item, or whether it is steady, by 1 and 0.
trait Value: Copy + Eq + fmt::Display {
    const READING: &'static str;

    /// What a place holds before a walk: no value of a small table.
    fn unwritten(place: usize) -> Self;

    fn walk(image: &[u8], memory: Memory, table: Table, values: &mut [Self]) -> Walked;
}

impl Value for u32 {
    const READING: &'static str = "depth";

    fn unwritten(place: usize) -> Self {
        0xA5A5_0000 ^ place as u32
    }

    fn walk(image: &[u8], memory: Memory, table: Table, values: &mut [Self]) -> Walked {
        library::depth(image, memory, table, values)
    }
}

impl Value for u8 {
    const READING: &'static str = "steady";

    fn unwritten(place: usize) -> Self {
        2 + (place % 254) as u8
    }

    fn walk(image: &[u8], memory: Memory, table: Table, values: &mut [Self]) -> Walked {
        library::steady(image, memory, table, values)
    }
}

/// A table of naga's module, walked.
struct Expected {
    table: Table,
    depths: Vec<u32>,
    steady: Vec<u8>,
    takes: usize,
}

impl Expected {
    fn new<'a, T, I>(number: u32, body: usize, items: impl Fn() -> I) -> Self
    where
        T: Node + 'a,
        I: Iterator<Item = (Handle<T>, &'a T)>,
    {
        let nodes = || items().map(|(_, item)| item);
        Expected {
            table: Table {
                number,
                body: body as u32,
            },
            depths: depths(nodes()),
            steady: steady(nodes()),
            takes: takes(nodes()),
        }
    }

    fn items(&self) -> usize {
        self.depths.len()
    }

    fn answer(&self) -> Walked {
        Walked {
            verdict: Verdict::default(),
            items: self.items(),
            takes: self.takes,
        }
    }
}

/// The tables of a module, and those of its last bodies.
fn expected(module: &Module) -> Vec<Expected> {
    // The tables of the module take any number of a body.
    let any = module.types.len();
    let mut all = vec![
        Expected::new(TYPES, any, || module.types.iter()),
        Expected::new(FILTERS, any, || module.diagnostic_filters.iter()),
        Expected::new(FUNCTIONS, any, || module.functions.iter()),
        Expected::new(GLOBAL_EXPRESSIONS, any, || module.global_expressions.iter()),
    ];
    let functions = module.functions.iter().map(|(_, function)| function);
    for (number, function) in functions.enumerate().rev().take(BODIES) {
        all.push(Expected::new(FUNCTION_BODY, number, || {
            function.expressions.iter()
        }));
    }
    let entry_points = module.entry_points.iter().map(|it| &it.function);
    for (number, function) in entry_points.enumerate().rev().take(BODIES) {
        all.push(Expected::new(ENTRY_POINT_BODY, number, || {
            function.expressions.iter()
        }));
    }
    all
}

/// Why a walk is wrong.
struct Wrong {
    reading: &'static str,
    table: Table,
    places: usize,
    answered: Walked,
    expected: Walked,
    /// The first place that holds a wrong value.
    value: Option<String>,
}

type Tested = Result<(), Box<Wrong>>;

impl fmt::Display for Wrong {
    fn fmt(&self, f: &mut fmt::Formatter<'_>) -> fmt::Result {
        let Table { number, body } = self.table;
        write!(
            f,
            "{} of table {number} body {body} in {} places: library {} reference {}",
            self.reading, self.places, self.answered, self.expected
        )?;
        match &self.value {
            Some(value) => write!(f, ", {value}"),
            None => Ok(()),
        }
    }
}

impl fmt::Display for Walked {
    fn fmt(&self, f: &mut fmt::Formatter<'_>) -> fmt::Result {
        write!(f, "{} {} {}", self.verdict, self.items, self.takes)
    }
}

/// An image, asked for in so much memory.
#[derive(Clone, Copy)]
struct Image<'a> {
    bytes: &'a [u8],
    memory: Memory,
}

impl Image<'_> {
    /// Asks for a walk that must answer this and leave these values, and behind them what the places held before.
    fn ask<V: Value>(self, table: Table, places: usize, expected: Walked, values: &[V]) -> Tested {
        let mut left: Vec<V> = (0..places).map(V::unwritten).collect();
        let right = [values, &left[values.len()..]].concat();
        let answered = V::walk(self.bytes, self.memory, table, &mut left);
        let value = (0..places).find(|&place| left[place] != right[place]);
        if answered == expected && value.is_none() {
            return Ok(());
        }
        Err(Box::new(Wrong {
            reading: V::READING,
            table,
            places,
            answered,
            expected,
            value: value.map(|place| {
                let (left, right) = (left[place], right[place]);
                format!("place {place}: library {left} reference {right}")
            }),
        }))
    }

    /// Asks for a walk that is refused, by one of the readings.
    fn ask_refused(self, depth: bool, table: Table, places: usize, verdict: Verdict) -> Tested {
        if depth {
            self.ask::<u32>(table, places, verdict.into(), &[])
        } else {
            self.ask::<u8>(table, places, verdict.into(), &[])
        }
    }
}

/// What is walked in tables of one number.
#[derive(Clone, Copy, Default)]
struct Count {
    tables: u64,
    items: u64,
    takes: u64,
    steady: u64,
    deepest: u32,
}

impl Count {
    fn add(&mut self, expected: &Expected) {
        self.join(Count {
            tables: 1,
            items: expected.items() as u64,
            takes: expected.takes as u64,
            steady: expected.steady.iter().filter(|&&flag| flag == 1).count() as u64,
            deepest: expected.depths.iter().copied().max().unwrap_or(0),
        });
    }

    fn join(&mut self, other: Count) {
        self.tables += other.tables;
        self.items += other.items;
        self.takes += other.takes;
        self.steady += other.steady;
        self.deepest = self.deepest.max(other.deepest);
    }
}

/// What came of the images of one source.
#[derive(Default)]
pub struct Walks {
    name: &'static str,
    images: u64,
    walked: u64,
    counts: [Count; TABLES.len()],
    no_such_body: u64,
    too_few_places: u64,
    /// The images on which a walk is wrong.
    wrong: Vec<(Vec<u8>, Box<Wrong>)>,
}

impl Outcome for Walks {
    fn add(&mut self, number: u64, image: Vec<u8>, memory: Memory) {
        self.images += 1;
        let asked = |memory| Image {
            bytes: &image,
            memory,
        };
        let tested = match reference::sealed_module(&image, memory) {
            Ok(module) if number.is_multiple_of(LARGE_EACH) => {
                self.test_walks(number as usize, asked(Memory::LARGE), &module)
            }
            Ok(module) => self.test_walks(number as usize, asked(memory), &module),
            Err(verdict) => test_refused(number as usize, asked(memory), verdict),
        };
        if let Err(wrong) = tested {
            self.wrong.push((image, wrong));
        }
    }

    fn join(&mut self, other: Self) {
        self.images += other.images;
        self.walked += other.walked;
        for (count, other) in self.counts.iter_mut().zip(other.counts) {
            count.join(other);
        }
        self.no_such_body += other.no_such_body;
        self.too_few_places += other.too_few_places;
        self.wrong.extend(other.wrong);
    }

    fn differing(&self) -> usize {
        self.wrong.len()
    }
}

/// A walk of an image that put or sealing refuses, of one of the tables or of none.
fn test_refused(number: usize, image: Image<'_>, verdict: Verdict) -> Tested {
    let table = Table {
        number: number as u32 % (NO_TABLE + 1),
        body: 0,
    };
    image.ask_refused(number.is_multiple_of(2), table, number % 5, verdict)
}

impl Walks {
    pub fn agrees(&self) -> bool {
        self.wrong.is_empty()
    }

    /// All tables of a module that sealing accepts by both readings, with up to three places more than items; and, by one
    /// of the readings, one place too few, bodies behind the last, and numbers of no table.
    fn test_walks(&mut self, number: usize, image: Image<'_>, module: &Module) -> Tested {
        self.walked += 1;
        let all = expected(module);
        for (at, expected) in all.iter().enumerate() {
            let (table, items) = (expected.table, expected.items());
            let places = items + (number + at) % 4;
            image.ask(table, places, expected.answer(), &expected.depths)?;
            image.ask(table, places, expected.answer(), &expected.steady)?;
            self.counts[table.number as usize].add(expected);
            if items > 0 {
                let verdict = Verdict::refused(TOO_FEW_PLACES);
                image.ask_refused((number + at).is_multiple_of(2), table, items - 1, verdict)?;
                self.too_few_places += 1;
            }
        }
        for (at, table) in missing(module, number as u32).into_iter().enumerate() {
            let verdict = Verdict::refused(NO_SUCH_BODY);
            image.ask_refused(
                (number + at).is_multiple_of(2),
                table,
                (number + at) % 3,
                verdict,
            )?;
            self.no_such_body += 1;
        }
        Ok(())
    }
}

/// Tables that a module does not have: the bodies behind the last and one far behind, and numbers of no table.
fn missing(module: &Module, any: u32) -> [Table; 5] {
    let functions = module.functions.len() as u32;
    let entry_points = module.entry_points.len() as u32;
    [
        (FUNCTION_BODY, functions),
        (ENTRY_POINT_BODY, entry_points),
        (FUNCTION_BODY + any % 2, u32::MAX << (any % 32)),
        (NO_TABLE, 0),
        (NO_TABLE << (any % 30), 0),
    ]
    .map(|(number, body)| Table { number, body })
}

/// Prints what was walked of each source, and each image on which a walk is wrong.
pub fn print(sources: &[Walks]) {
    report::head("", sources.iter().map(|it| it.name));
    sums("images", sources, |it| it.images);
    sums("walked", sources, |it| it.walked);
    print_counts("tables", sources, |count| count.tables);
    print_counts("items", sources, |count| count.items);
    print_counts("takes", sources, |count| count.takes);
    print_counts("steady", sources, |count| count.steady);
    greatest("deepest", sources, |it| {
        it.counts
            .iter()
            .map(|count| count.deepest)
            .max()
            .unwrap_or(0)
            .into()
    });
    sums("refused 14", sources, |it| it.no_such_body);
    sums("refused 15", sources, |it| it.too_few_places);
    sums("differing", sources, |it| it.differing() as u64);
    for (image, wrong) in sources.iter().flat_map(|it| &it.wrong) {
        println!("{wrong} image {}", hexadecimal::encode(image));
    }
}

/// Prints a count of all tables, and of those of each number.
fn print_counts(head: &str, sources: &[Walks], count: impl Fn(&Count) -> u64) {
    sums(head, sources, |it| it.counts.iter().map(&count).sum());
    for (number, name) in TABLES.iter().enumerate() {
        sums(&format!(" {name}"), sources, |it| count(&it.counts[number]));
    }
}

/// The walks of all images of a source, by so many threads.
pub fn compare(source: &Source, jobs: usize) -> Walks {
    Walks {
        name: source.name,
        ..jobs::run(source, jobs)
    }
}
