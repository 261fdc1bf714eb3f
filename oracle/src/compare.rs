//! The verdicts for many images, counted, and the images on which they differ or that are accepted with a flaw.
use crate::contents::Content;
use crate::decode::Memory;
use crate::jobs::{self, Outcome};
use crate::report::{self, sums};
use crate::sealed::{self, Flaw};
use crate::source::Source;
use crate::verdict::Verdicts;
use crate::{hexadecimal, library, reference};
use std::collections::{BTreeMap, BTreeSet};
use std::fmt;

/// How often the ten functions that answer one number each are asked instead: once in so many images.
const NUMBERS_EACH: u64 = 64;

/// What is wrong with an image.
enum Finding {
    /// The library answers otherwise.
    Differs {
        library: Verdicts,
        reference: Verdicts,
    },
    /// Sealing accepts it.
    Flawed(Flaw),
}

impl fmt::Display for Finding {
    fn fmt(&self, f: &mut fmt::Formatter<'_>) -> fmt::Result {
        match self {
            Finding::Differs { library, reference } => {
                write!(f, "library {library} reference {reference}")
            }
            Finding::Flawed(flaw) => write!(f, "accepted, but {flaw}:"),
        }
    }
}

/// An image with what is wrong.
struct Disagreement {
    image: Vec<u8>,
    finding: Finding,
}

/// What came of the images of one source.
#[derive(Default)]
pub struct Comparison {
    name: &'static str,
    /// How many images got each number and kind from sealing.
    counted: BTreeMap<(u32, u32), u64>,
    /// How many images the check passes.
    passing: u64,
    /// How many of the accepted images have each content.
    contents: BTreeMap<Content, u64>,
    images: u64,
    /// The total length of the images.
    bytes: u64,
    disagreements: Vec<Disagreement>,
}

impl Outcome for Comparison {
    fn add(&mut self, number: u64, image: Vec<u8>, memory: Memory) {
        let reference = reference::verdicts(&image, memory);
        let library = match memory {
            Memory::LARGE => library::large(&image, 1 + number as u32 % 2),
            _ if number.is_multiple_of(NUMBERS_EACH) => library::numbers(&image),
            _ => library::verdicts(&image),
        };
        self.count_image(&image, reference);
        if reference.accepts() {
            if let Some(flaw) = sealed::flaw(&image) {
                self.disagree(image.clone(), Finding::Flawed(flaw));
            }
        }
        if library != reference {
            self.disagree(image, Finding::Differs { library, reference });
        }
    }

    fn join(&mut self, other: Self) {
        for (pair, count) in other.counted {
            *self.counted.entry(pair).or_default() += count;
        }
        for (content, count) in other.contents {
            *self.contents.entry(content).or_default() += count;
        }
        self.passing += other.passing;
        self.images += other.images;
        self.bytes += other.bytes;
        self.disagreements.extend(other.disagreements);
    }

    fn differing(&self) -> usize {
        self.disagreements.len()
    }
}

impl Comparison {
    pub fn agrees(&self) -> bool {
        self.disagreements.is_empty()
    }

    fn count_image(&mut self, image: &[u8], verdicts: Verdicts) {
        self.images += 1;
        self.bytes += image.len() as u64;
        let pair = (verdicts.seal.number, verdicts.seal.kind);
        *self.counted.entry(pair).or_default() += 1;
        if verdicts.check.number == 0 {
            self.passing += 1;
        }
        if verdicts.accepts() {
            for content in Content::of(image) {
                *self.contents.entry(content).or_default() += 1;
            }
        }
    }

    fn disagree(&mut self, image: Vec<u8>, finding: Finding) {
        self.disagreements.push(Disagreement { image, finding });
    }

    fn count(&self, pair: (u32, u32)) -> u64 {
        self.counted.get(&pair).copied().unwrap_or(0)
    }
}

/// Prints how often each number and kind came from sealing for each source, how often the check passed, what the accepted
/// images have, and each image with which something is wrong.
pub fn print(comparisons: &[Comparison]) {
    report::head("number kind", comparisons.iter().map(|it| it.name));
    let pairs: BTreeSet<_> = comparisons
        .iter()
        .flat_map(|it| it.counted.keys().copied())
        .collect();
    for pair in pairs {
        let head = format!("{:>6} {:>4}", pair.0, pair.1);
        sums(&head, comparisons, |it| it.count(pair));
    }
    sums("check passes", comparisons, |it| it.passing);
    sums("accepted", comparisons, |it| it.count((0, 0)));
    for content in Content::ALL {
        let head = format!(" {}", content.name());
        sums(&head, comparisons, |it| {
            it.contents.get(&content).copied().unwrap_or(0)
        });
    }
    sums("images", comparisons, |it| it.images);
    sums("bytes", comparisons, |it| it.bytes);
    sums("differing", comparisons, |it| it.differing() as u64);
    for found in comparisons.iter().flat_map(|it| &it.disagreements) {
        println!(
            "{} image {}",
            found.finding,
            hexadecimal::encode(&found.image)
        );
    }
}

/// The verdicts for all images of a source, by so many threads.
pub fn compare(source: &Source, jobs: usize) -> Comparison {
    Comparison {
        name: source.name,
        ..jobs::run(source, jobs)
    }
}
