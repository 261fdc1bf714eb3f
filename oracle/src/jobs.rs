//! The images of a source, worked through by several threads.
use crate::decode::Memory;
use crate::library;
use crate::source::Source;
use std::sync::atomic::{AtomicU64, Ordering};
use std::thread;

/// How often a long run says how far it is.
const PROGRESS_EACH: u64 = 100_000;

/// What comes of some images.
pub trait Outcome: Default + Send {
    /// Adds what comes of the image with this number.
    fn add(&mut self, number: u64, image: Vec<u8>, memory: Memory);

    /// Adds what came of other images.
    fn join(&mut self, other: Self);

    /// With how many images something is wrong.
    fn differing(&self) -> usize;
}

/// What comes of all images of a source, by so many threads.
pub fn run<O: Outcome>(source: &Source, jobs: usize) -> O {
    let next = AtomicU64::new(0);
    let mut whole = O::default();
    thread::scope(|scope| {
        let workers: Vec<_> = (0..jobs)
            .map(|_| {
                thread::Builder::new()
                    .stack_size(library::STACK)
                    .spawn_scoped(scope, || work(source, &next))
                    .expect("a thread starts")
            })
            .collect();
        for worker in workers {
            whole.join(worker.join().expect("both sides answer"));
        }
    });
    eprintln!(
        "{}: {} images, {} differing",
        source.name,
        source.count,
        whole.differing()
    );
    whole
}

fn work<O: Outcome>(source: &Source, next: &AtomicU64) -> O {
    let mut part = O::default();
    loop {
        let number = next.fetch_add(1, Ordering::Relaxed);
        if number >= source.count {
            return part;
        }
        if number > 0 && number.is_multiple_of(PROGRESS_EACH) {
            eprintln!("{}: {number} of {}", source.name, source.count);
        }
        part.add(number, source.image(number), source.memory);
    }
}
