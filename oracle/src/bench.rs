//! Times of both checkers on the same modules, and of both walks of the same tables.
use crate::decode::{decode, Memory};
use crate::layout::ABSENT;
use crate::library::table::{FUNCTION_BODY, GLOBAL_EXPRESSIONS, NO_TABLE};
use crate::library::{Table, Walked};
use crate::sample::{long_body, long_table, sample, Order};
use crate::writer::words;
use crate::{library, readings, reference};
use std::hint::black_box;
use std::time::{Duration, Instant};

/// How long one measurement takes at least, and how many there are. The least of them counts.
const LONG: Duration = Duration::from_millis(60);
const ROUNDS: usize = 9;

/// How many walks over naga's module are made between two looks at the clock.
const BATCH: u32 = 10;

/// Prints a table of nanoseconds for each record, and one for each item of the tables that are walked. The thread needs `library::STACK`.
pub fn run() {
    println!("records order          ours (put, check)        naga (arenas, check)  ratio");
    for size in [100, 1_000, 10_000, 100_000] {
        for order in [Order::Bodies, Order::Grouped, Order::Interleaved] {
            measure(size, order);
        }
    }
    println!();
    println!("  items table   reading    ours    naga   ratio");
    for size in [100, 1_000, 10_000, 100_000] {
        measure_walks("body", FUNCTION_BODY, &long_body(size));
        measure_walks("global", GLOBAL_EXPRESSIONS, &long_table(size));
    }
}

fn measure(size: usize, order: Order) {
    let records = sample(size, order);
    let count = records.len();
    let image = records.concat();
    let verdicts = reference::verdicts(&image, Memory::LARGE);
    let verdict = verdicts.check;
    assert_eq!(verdict.number, 0, "the sample passes: {verdict}");
    assert_eq!(library::check_large(&image, 1), verdict);
    // A function that is left open: all records are put, and the check answers at once.
    let open = [&image[..], &words(11, &[1, ABSENT])].concat();
    let each = |time: Duration| time.as_nanos() as f64 / count as f64;
    let (mut ours, mut put) = (f64::INFINITY, f64::INFINITY);
    let (mut arenas, mut check) = (f64::INFINITY, f64::INFINITY);
    for _ in 0..ROUNDS {
        ours = ours.min(each(time_of_library(&image)));
        put = put.min(each(time_of_library(&open)));
        let times = times_of_naga(&image);
        if each(times.0 + times.1) < arenas + check {
            (arenas, check) = (each(times.0), each(times.1));
        }
    }
    let naga = arenas + check;
    println!(
        "{count:>7} {:<11} {ours:>7.1} ({put:.1}, {:.1})   {naga:>6.1} ({arenas:.1}, {check:.1})   {:.1}",
        order.name(),
        ours - put,
        ours / naga
    );
}

/// The time of one put of all records and one check. The arrays are cleared by each call of the library once, which is
/// taken away: the time of a call with two rounds more is compared with that of a call with fewer.
fn time_of_library(image: &[u8]) -> Duration {
    let time = |times| {
        let start = Instant::now();
        black_box(library::check_large(black_box(image), times));
        start.elapsed()
    };
    let mut more = 1;
    loop {
        let once = time(1);
        let many = time(1 + more);
        let rounds = many.saturating_sub(once);
        if rounds >= LONG || more >= 1 << 20 {
            return rounds / more;
        }
        more *= 2;
    }
}

/// The time of one decoding into arenas, and that of naga's check of them. Dropping them is not counted.
fn times_of_naga(image: &[u8]) -> (Duration, Duration) {
    let (mut arenas, mut check) = (Duration::ZERO, Duration::ZERO);
    let mut rounds = 0;
    while arenas + check < LONG {
        let start = Instant::now();
        let Ok(decoded) = decode::<false>(black_box(image), Memory::LARGE) else {
            panic!("the sample is put");
        };
        let built = Instant::now();
        black_box(reference::check(black_box(&decoded.module)));
        check += built.elapsed();
        arenas += built - start;
        rounds += 1;
    }
    (arenas / rounds, check / rounds)
}

/// Prints the nanoseconds for each item of a table of expressions, by both readings.
fn measure_walks(name: &str, number: u32, image: &[u8]) {
    let module = reference::sealed_module(image, Memory::LARGE).expect("the sample is sealed");
    let function = module.functions.iter().next();
    let items = function.map_or(&module.global_expressions, |(_, it)| &it.expressions);
    let count = items.len();
    let memory = match image.len() <= Memory::SMALL.bytes && count + 2 <= Memory::SMALL.slots {
        true => Memory::SMALL,
        false => Memory::LARGE,
    };
    let print = |reading: &str, ours: Duration, naga: Duration| {
        let each = |time: Duration| time.as_nanos() as f64 / count as f64;
        let (ours, naga) = (each(ours), each(naga));
        let ratio = ours / naga;
        println!("{count:>7} {name:<7} {reading:<7} {ours:>7.1} {naga:>7.2} {ratio:>7.1}");
    };
    let nodes = || black_box(items).iter().map(|(_, item)| item);
    let mut values = vec![0; count];
    let depth = time_of_walk(number, |table| {
        library::depth(black_box(image), memory, table, &mut values)
    });
    print("depth", depth, time_over_naga(|| readings::depths(nodes())));
    let mut values = vec![0; count];
    let steady = time_of_walk(number, |table| {
        library::steady(black_box(image), memory, table, &mut values)
    });
    print(
        "steady",
        steady,
        time_over_naga(|| readings::steady(nodes())),
    );
}

/// The time of a walk. Each call seals the image anew, so that of a call for no table, which seals it and refuses, is
/// taken away.
fn time_of_walk(number: u32, mut walk: impl FnMut(Table) -> Walked) -> Duration {
    let mut time = |number| {
        let start = Instant::now();
        black_box(walk(Table { number, body: 0 }));
        start.elapsed()
    };
    let start = Instant::now();
    let (mut with, mut without) = (Duration::MAX, Duration::MAX);
    while start.elapsed() < LONG * ROUNDS as u32 {
        with = with.min(time(number));
        without = without.min(time(NO_TABLE));
    }
    with.saturating_sub(without)
}

/// The time of a walk over naga's module, with the list of values that it makes.
fn time_over_naga<V>(walk: impl Fn() -> V) -> Duration {
    let round = |_| {
        let start = Instant::now();
        let mut walks = 0;
        while start.elapsed() < LONG {
            (0..BATCH).for_each(|_| drop(black_box(walk())));
            walks += BATCH;
        }
        start.elapsed() / walks
    };
    (0..ROUNDS).map(round).min().expect("there are rounds")
}
