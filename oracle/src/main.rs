//! Runs naga's handle check and ours, and two ways of sealing and of walking, on the same images and compares their
//! answers.
mod bench;
mod body;
mod breaches;
mod catalogue;
mod chains;
mod compare;
mod contents;
mod damage;
mod decode;
mod generator;
mod handles;
mod hexadecimal;
mod image;
mod jobs;
mod layout;
mod library;
mod limits;
mod lists;
mod locate;
mod operands;
mod orders;
mod positions;
mod random;
mod readings;
mod record;
mod reference;
mod refusal;
mod report;
mod sample;
mod seal;
mod sealable;
mod sealed;
mod source;
mod statements;
mod unchecked;
mod vectors;
mod verdict;
mod walks;
mod writer;

use compare::{compare, Comparison};
use decode::Memory;
use generator::Scale;
use source::Source;
use std::io::{self, BufRead};
use std::path::Path;
use std::process::ExitCode;
use std::{env, thread};
use walks::Walks;

const USAGE: &str = "\
usage: oracle compare [--seed N] [--images N] [--jobs N]   compare the answers on all short images, the catalogue, the
                                                          limits, so many random and damaged images, and half as
                                                          many that sealing nearly accepts
       oracle images                                      compare on the images on standard input, a line each
       oracle answers                                     print the answers to the images there: five numbers of the
                                                          check and five of sealing
       oracle walks [--seed N] [--images N] [--jobs N]     compare the walks of tables on the catalogue, each operand,
                                                          the limits, deep tables, and so many random images
       oracle walk                                        compare the walks on the images on standard input
       oracle vectors FOLDER [--seed N]                   write the recorded list to FOLDER/stdin and FOLDER/stdout
       oracle bench                                       measure both";

/// What the options of a command say.
struct Options {
    seed: u64,
    images: u64,
    jobs: usize,
}

fn main() -> ExitCode {
    let words: Vec<String> = env::args().skip(1).collect();
    let words: Vec<&str> = words.iter().map(String::as_str).collect();
    let outcome = match words[..] {
        ["compare", ref rest @ ..] => options(rest, 1_000_000).map(|options| compare_all(&options)),
        ["images"] => Some(compare_given()),
        ["answers"] => Some(answer_given()),
        ["walks", ref rest @ ..] => options(rest, 100_000).map(|options| walk_all(&options)),
        ["walk"] => Some(walk_given()),
        ["vectors", folder, ref rest @ ..] => {
            options(rest, 0).map(|options| write_vectors(options.seed, folder))
        }
        ["bench"] => Some(measure()),
        _ => None,
    };
    outcome.unwrap_or_else(|| {
        eprintln!("{USAGE}");
        ExitCode::from(2)
    })
}

/// The options, with so many images where they do not say how many.
fn options(words: &[&str], images: u64) -> Option<Options> {
    let mut options = Options {
        seed: 30,
        images,
        jobs: 2,
    };
    for pair in words.chunks(2) {
        let &[name, value] = pair else {
            return None;
        };
        match name {
            "--seed" => options.seed = value.parse().ok()?,
            "--images" => options.images = value.parse().ok()?,
            "--jobs" => options.jobs = value.parse().ok()?,
            _ => return None,
        }
    }
    Some(options)
}

fn compare_all(options: &Options) -> ExitCode {
    let &Options { seed, images, jobs } = options;
    println!("seed {seed}");
    let damaged = images / 4;
    let sources = [
        Source::short(),
        Source::lists(),
        Source::catalogue(),
        Source::orders(),
        Source::breaches(),
        Source::limits(),
        Source::large(),
        Source::random(seed, Scale::Any, images - damaged),
        Source::damaged(seed, Scale::Any, damaged),
        Source::sealable(seed, images / 2),
    ];
    let comparisons: Vec<_> = sources.iter().map(|it| compare(it, jobs)).collect();
    finish(&comparisons)
}

fn compare_given() -> ExitCode {
    match given() {
        Some(images) => finish(&[compare(&Source::listed("given", images), 1)]),
        None => ExitCode::FAILURE,
    }
}

fn walk_all(options: &Options) -> ExitCode {
    let &Options { seed, images, jobs } = options;
    println!("seed {seed}");
    let others = images / 4;
    let sources = [
        Source::catalogue(),
        Source::operands(),
        Source::limits(),
        Source::large(),
        Source::chains(),
        Source::large_chains(),
        Source::random(seed, Scale::Any, others),
        Source::sealable(seed, others),
        Source::sealed(seed, images - 2 * others),
    ];
    let walks: Vec<_> = sources.iter().map(|it| walks::compare(it, jobs)).collect();
    finish_walks(&walks)
}

fn walk_given() -> ExitCode {
    match given() {
        Some(images) => finish_walks(&[walks::compare(&Source::listed("given", images), 1)]),
        None => ExitCode::FAILURE,
    }
}

fn finish_walks(walks: &[Walks]) -> ExitCode {
    walks::print(walks);
    status(walks.iter().all(Walks::agrees))
}

fn answer_given() -> ExitCode {
    let Some(images) = given() else {
        return ExitCode::FAILURE;
    };
    for image in images {
        println!("{}", reference::verdicts(&image, Memory::SMALL));
    }
    ExitCode::SUCCESS
}

/// The images on standard input, one in hexadecimal on each line.
fn given() -> Option<Vec<Vec<u8>>> {
    let lines = io::stdin().lock().lines().map_while(Result::ok);
    let images: Option<Vec<_>> = lines.map(|line| hexadecimal::decode(line.trim())).collect();
    if images.is_none() {
        eprintln!("a line is not hexadecimal");
    }
    images
}

fn finish(comparisons: &[Comparison]) -> ExitCode {
    compare::print(comparisons);
    status(comparisons.iter().all(Comparison::agrees))
}

fn status(agrees: bool) -> ExitCode {
    match agrees {
        true => ExitCode::SUCCESS,
        false => ExitCode::FAILURE,
    }
}

fn write_vectors(seed: u64, folder: &str) -> ExitCode {
    match vectors::write(seed, Path::new(folder)) {
        Ok(()) => ExitCode::SUCCESS,
        Err(error) => {
            eprintln!("{folder}: {error}");
            ExitCode::FAILURE
        }
    }
}

fn measure() -> ExitCode {
    let thread = thread::Builder::new().stack_size(library::STACK);
    let run = thread.spawn(bench::run).expect("a thread starts");
    run.join().expect("the benchmark ends");
    ExitCode::SUCCESS
}
