//! Tables that are as deep as the memory allows: nearly every item takes the one before it.
use crate::decode::Memory;
use crate::layout::ABSENT;
use crate::writer::words;

/// How many types there are. Each is compared with all before it when it is put.
const TYPES: u32 = 1000;

/// The expression that is the first one that is not steady.
const UNSTEADY: u32 = 1000;

/// Makes the item with a number, which takes earlier ones.
type Item = fn(u32) -> Vec<u8>;

const EXPRESSIONS: [Item; 4] = [
    |number| words(80, &[1, number - 1]),
    |number| words(81, &[1, number - 1, number - 1]),
    |number| words(81, &[1, number / 2, number - 1]),
    |number| match number {
        UNSTEADY => words(83, &[1, 1, number - 1]),
        _ => words(80, &[1, number - 1]),
    },
];

/// What stands in the function with a number: a result of the one before it, a call, or both in a block.
const CALLS: [Item; 3] = [
    |number| words(87, &[number - 1]),
    |number| words(144, &[number - 1, ABSENT]),
    |number| {
        let call = words(144, &[number / 2, ABSENT]);
        [vec![129], call, words(87, &[number - 1]), vec![151]].concat()
    },
];

/// The images, with tables as long as the slots allow, but for types.
pub fn images(memory: Memory) -> Vec<Vec<u8>> {
    let slots = memory.slots as u32;
    let mut images = vec![types(), filters(slots)];
    // A function is of at most six records.
    images.extend(CALLS.map(|call| functions(slots / 6, call)));
    for expression in EXPRESSIONS {
        images.push(expressions(slots, expression));
        for opener in [words(11, &[1, ABSENT]), entry_point()] {
            let body = expressions(slots - 2, expression);
            images.push([opener, body, vec![31]].concat());
        }
    }
    images
}

/// Pointers, arrays and structs.
fn types() -> Vec<u8> {
    let mut image = words(16, &[0, 1]);
    for number in 1..TYPES {
        image.extend(match number % 3 {
            0 => words(21, &[number, number - 1, 1]),
            1 => [
                &words(23, &[number, number - 1])[..],
                &[2],
                &[0xFF; 4],
                &[4, 0, 0, 0],
            ]
            .concat(),
            _ => [
                words(1, &[1, number - 1, 0, 0]),
                words(1, &[2, number / 2, 0, 4]),
                words(24, &[number, 8]),
            ]
            .concat(),
        });
    }
    image
}

fn filters(count: u32) -> Vec<u8> {
    let parent = |number: u32| number.checked_sub(1).unwrap_or(ABSENT);
    (0..count)
        .flat_map(|number| words(8, &[1, parent(number)]))
        .collect()
}

fn functions(count: u32, call: Item) -> Vec<u8> {
    let mut image = Vec::new();
    for number in 0..count {
        image.extend(words(11, &[number, ABSENT]));
        if number > 0 {
            image.extend(call(number));
        }
        image.push(31);
    }
    image
}

/// A literal and the expressions behind it.
fn expressions(count: u32, expression: Item) -> Vec<u8> {
    let rest = (1..count).flat_map(expression);
    words(64, &[1]).into_iter().chain(rest).collect()
}

/// An entry point that names nothing.
fn entry_point() -> Vec<u8> {
    let head = words(12, &[1, 1, 1, 1, ABSENT, ABSENT, ABSENT, ABSENT]);
    [head, vec![0], vec![0xFF; 40]].concat()
}
