//! The recorded list: small images with naga's answers and what sealing answers. It has every number and kind that is known to occur, every
//! kind of record in an image that passes, and every tested handle of every kind and case out of its table.
use crate::decode::Memory;
use crate::generator::Scale;
use crate::layout::{kinds, ABSENT};
use crate::source::Source;
use crate::verdict::{Fault, Verdicts, INSIDE};
use crate::writer::{case_bytes, handle_places, word};
use crate::{hexadecimal, image, limits, reference};
use std::collections::{BTreeMap, BTreeSet};
use std::path::Path;
use std::{fs, io};

/// How many images are recorded.
const IMAGES: usize = 4000;

/// How many bytes an image may have: one that shows something new, and any other.
const LONG: usize = 400;
const SHORT: usize = 92;

/// How many images may get the same number and kind, among those that show nothing new.
const SHARE: usize = 240;
const PASSING: usize = 800;

/// How many random images are tried for something new.
const TRIED: u64 = 50_000;

/// What an image shows.
#[derive(Clone, PartialEq, Eq, PartialOrd, Ord)]
enum Shown {
    /// Its answer.
    Answer(u32, u32),
    /// A kind of record in an image that passes.
    Passing(u8),
    /// A handle behind every table.
    Place {
        /// The record that opens the body in which the record stands, or 0.
        opener: u8,
        kind: u8,
        cases: Vec<u8>,
        at: usize,
        number: u32,
    },
}

struct Recorded {
    image: Vec<u8>,
    verdicts: Verdicts,
}

#[derive(Default)]
struct List {
    recorded: Vec<Recorded>,
    drawn: BTreeSet<Vec<u8>>,
    shown: BTreeSet<Shown>,
    counted: BTreeMap<(u32, u32), usize>,
}

/// Draws the list and writes it to the folder of the program that is run on it.
pub fn write(seed: u64, folder: &Path) -> io::Result<()> {
    let list = draw(seed);
    let mut images = String::new();
    let mut answers = String::new();
    for recorded in &list.recorded {
        images += &hexadecimal::encode(&recorded.image);
        images.push('\n');
        // naga's errors have no position.
        let Verdicts { check, seal } = recorded.verdicts;
        answers += &format!("check {} seal {seal}\n", check.fault());
    }
    fs::create_dir_all(folder)?;
    fs::write(folder.join("stdin"), &images)?;
    fs::write(folder.join("stdout"), &answers)?;
    println!(
        "{} images, {} and {} bytes",
        list.recorded.len(),
        images.len(),
        answers.len()
    );
    for ((number, kind), count) in &list.counted {
        println!("{number:>6} {kind:>4} {count}");
    }
    Ok(())
}

/// First the images that show what no earlier one shows, then random ones.
fn draw(seed: u64) -> List {
    let mut list = List::default();
    let first = [
        Source::catalogue(),
        Source::listed("limits", limits::images(Memory::SMALL)),
        Source::random(seed, Scale::Any, TRIED),
        Source::damaged(seed, Scale::Any, TRIED),
    ];
    for source in &first {
        for number in 0..source.count {
            list.add_new(source.image(number), LONG);
        }
    }
    list.add_new(limits::one_record_too_many(Memory::SMALL), usize::MAX);
    let passing = |it: &&Shown| matches!(it, Shown::Passing(_));
    assert_eq!(
        list.shown.iter().filter(passing).count(),
        kinds().count(),
        "each kind stands in an image that passes"
    );
    let random = Source::random(seed.wrapping_add(1), Scale::Small, u64::MAX);
    let damaged = Source::damaged(seed.wrapping_add(1), Scale::Small, u64::MAX);
    let mut number = 0;
    while list.recorded.len() < IMAGES {
        let source = if number % 8 == 0 { &damaged } else { &random };
        list.add_share(source.image(number));
        number += 1;
    }
    list
}

impl List {
    /// Adds an image that shows something new, if it is no longer than this.
    fn add_new(&mut self, image: Vec<u8>, longest: usize) {
        if image.len() > longest {
            return;
        }
        let verdicts = reference::verdicts(&image, Memory::SMALL);
        let shown = shows(&image, verdicts.check.fault());
        if shown.iter().any(|it| !self.shown.contains(it)) {
            self.shown.extend(shown);
            self.add(image, verdicts);
        }
    }

    /// Adds a small image while few have its answer.
    fn add_share(&mut self, image: Vec<u8>) {
        if image.len() > SHORT {
            return;
        }
        let verdicts = reference::verdicts(&image, Memory::SMALL);
        let fault = verdicts.check.fault();
        let most = if fault.number == 0 { PASSING } else { SHARE };
        let count = self.counted.get(&(fault.number, fault.kind));
        if count.is_none_or(|&count| count < most) {
            self.add(image, verdicts);
        }
    }

    fn add(&mut self, image: Vec<u8>, verdicts: Verdicts) {
        if self.drawn.insert(image.clone()) {
            let fault = verdicts.check.fault();
            *self.counted.entry((fault.number, fault.kind)).or_default() += 1;
            self.recorded.push(Recorded { image, verdicts });
        }
    }
}

fn shows(image: &[u8], fault: Fault) -> Vec<Shown> {
    let mut shown = vec![Shown::Answer(fault.number, fault.kind)];
    if fault.number == 0 {
        shown.extend(image::Parts::new(image).map(|part| Shown::Passing(part[0])));
    }
    if fault.number < INSIDE {
        return shown;
    }
    let mut opener = 0;
    for part in image::Parts::new(image) {
        for at in handle_places(part) {
            let word = word(part, at);
            if word >= 1000 && word != ABSENT {
                shown.push(Shown::Place {
                    opener,
                    kind: part[0],
                    cases: case_bytes(part),
                    at,
                    number: fault.number,
                });
            }
        }
        match part[0] {
            11 | 12 => opener = part[0],
            31 => opener = 0,
            _ => {}
        }
    }
    shown
}
