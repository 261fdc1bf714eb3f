//! Random images that sealing accepts or nearly so: up to two of the words that only sealing tests are changed.
use crate::generator;
use crate::layout::ABSENT;
use crate::random::Random;
use crate::unchecked::{Outline, Sort, Word, OF_BODIES};
use crate::writer::words;

/// What is changed, as often as it stands here.
const SORTS: [Sort; 9] = [
    Sort::Operand,
    Sort::Type,
    Sort::SizedType,
    Sort::SizedType,
    Sort::Argument,
    Sort::Call,
    Sort::Special,
    Sort::Payload,
    Sort::Compared,
];

/// A random image.
pub fn image(random: &mut Random) -> Vec<u8> {
    let mut records = generator::sealable_records(random);
    for _ in 0..random.pick(&[0, 0, 0, 1, 1, 1, 1, 2]) {
        change(&mut records, random);
    }
    records.concat()
}

/// A change that the check mostly does not see and sealing mostly does.
fn change(records: &mut [Vec<u8>], random: &mut Random) {
    let outline = Outline::of(records);
    if random.chance(100) {
        misplace(records, &outline, random);
        return;
    }
    let mut words = outline.words(records);
    let sort = random.pick(&SORTS);
    if words.iter().any(|word| word.sort == sort) {
        words.retain(|word| word.sort == sort);
    }
    if !words.is_empty() {
        let word = random.pick(&words);
        word.set(records, number(&word, &outline.sized, random));
    }
}

/// A number around the least that is refused.
fn number(word: &Word, sized: &[u32], random: &mut Random) -> u32 {
    if word.sort == Sort::SizedType {
        return random.pick(sized) + random.pick(&[0, 0, 0, 1]);
    }
    let least = word.least;
    let below = least.saturating_sub(1);
    random.pick(&[least, least, least, least + 1, below, ABSENT - 1])
}

/// Puts an expression that stands in bodies only among the global ones.
fn misplace(records: &mut [Vec<u8>], outline: &Outline, random: &mut Random) {
    let globals = outline.plain_globals(records);
    if !globals.is_empty() {
        let kind = random.pick(&OF_BODIES);
        records[random.pick(&globals)] = words(kind, &[random.below(3) as u32]);
    }
}
