//! Images at the limits: memory exactly full and too small, 64 and 65 brackets, and the largest handles.
use crate::decode::Memory;
use crate::layout::ABSENT;
use crate::writer::words;

pub fn images(memory: Memory) -> Vec<Vec<u8>> {
    let mut images = slots(memory);
    images.extend(bytes(memory));
    images.extend(equal_types(memory));
    images.extend(brackets());
    images
}

fn function() -> Vec<u8> {
    words(11, &[1, ABSENT])
}

/// Bodies of one-byte statements with as many records as there are slots, and one more or less.
fn slots(memory: Memory) -> Vec<Vec<u8>> {
    let slots = memory.slots;
    let body = |count: usize| {
        let mut image = function();
        image.extend(std::iter::repeat_n(133, count));
        image.push(31);
        image
    };
    let mut images = vec![body(slots - 3), body(slots - 2), body(slots - 1)];
    // The last record fits no more, and would be misplaced or cut short.
    for last in [vec![31], vec![10], vec![135, 0], vec![64, 1, 0, 0, 0]] {
        images.push([body(slots - 2), last].concat());
    }
    // One-byte expressions outside a function, and one of its statements behind them.
    images.push(vec![92; slots]);
    images.push(one_record_too_many(memory));
    images
}

/// The shortest image for which the slots do not suffice.
pub fn one_record_too_many(memory: Memory) -> Vec<u8> {
    vec![92; memory.slots + 1]
}

/// Overrides of 17 bytes up to as many bytes as there are, in every way to end there or one byte behind.
fn bytes(memory: Memory) -> Vec<Vec<u8>> {
    let room = memory.bytes;
    let scalar = words(16, &[1, 1]);
    let item = words(3, &[1, 1, 0, ABSENT]);
    let mut front = scalar.clone();
    while room - front.len() >= 2 * item.len() + 9 {
        front.extend(&item);
    }
    let mut images = Vec::new();
    for tail in [1, 5, 6, 9, 13, 14, 17, 18, 21, 22, 25] {
        let left = room - front.len();
        for total in [left - 1, left, left + 1] {
            let mut image = front.clone();
            image.extend(filler(total.saturating_sub(tail)));
            image.extend(last(tail));
            images.push(image);
        }
    }
    images
}

/// One-byte expressions of so many bytes.
fn filler(bytes: usize) -> Vec<u8> {
    vec![92; bytes]
}

/// A record of so many bytes that may stand outside a function.
fn last(length: usize) -> Vec<u8> {
    match length {
        1 => vec![94],
        5 => words(64, &[1]),
        6 => vec![26, 9, 0, 0, 0, 1],
        9 => words(8, &[1, ABSENT]),
        13 => words(81, &[1, 0, 0]),
        14 => [&words(25, &[9, 1])[..], &[1, 1, 0, 0, 0]].concat(),
        17 => words(3, &[1, 1, 0, ABSENT]),
        18 => [&words(23, &[9, 0])[..], &[2], &[0xFF; 4], &[1, 0, 0, 0]].concat(),
        21 => words(6, &[ABSENT; 5]),
        22 => {
            let mut record = words(96, &[1, 1, 1, 0, 0]);
            record.push(0);
            record
        }
        _ => words(5, &[1, 1, 1, 0, ABSENT, 1]),
    }
}

/// Types that equal a kept one where memory is full, with and without members.
fn equal_types(memory: Memory) -> Vec<Vec<u8>> {
    let slots = memory.slots;
    let scalar = words(16, &[1, 1]);
    let member = words(1, &[1, 0, 1, 0]);
    let structure = words(24, &[2, 4]);
    let front = [&scalar[..], &member, &structure].concat();
    let mut images = Vec::new();
    for free in 0..4 {
        let full = [&front[..], &filler(slots - 3 - free)].concat();
        images.push([&full[..], &scalar].concat());
        images.push([&full[..], &words(16, &[2, 1])].concat());
        images.push([&full[..], &member, &structure].concat());
        images.push([&full[..], &member, &member, &structure].concat());
        images.push([&full[..], &member, &structure, &filler(free)].concat());
        images.push([&full[..], &member, &structure, &filler(free + 1)].concat());
        images.push([&full[..], &member, &words(24, &[3, 4])].concat());
        images.push([&full[..], &words(24, &[2, 4])].concat());
    }
    images
}

/// Brackets nested 63 to 66 deep, of each kind and mixed.
fn brackets() -> Vec<Vec<u8>> {
    let mut images = Vec::new();
    for deep in 63..=66 {
        for pattern in 0..7 {
            images.push(nested(deep, pattern, None, true));
            images.push(nested(deep, pattern, Some(0), true));
            images.push(nested(deep, pattern, Some(1), true));
            images.push(nested(deep, pattern, None, false));
        }
    }
    images
}

/// A body with so many brackets open at a time, with a statement in the innermost, closed or left open.
fn nested(deep: usize, pattern: usize, value: Option<u32>, closed: bool) -> Vec<u8> {
    let mut image = [function(), words(64, &[1])].concat();
    let mut closers: Vec<Vec<u8>> = Vec::new();
    let mut in_switch = false;
    for level in 0..deep {
        let choice = if pattern == 6 { level % 6 } else { pattern };
        if in_switch {
            image.extend([153, 0, 0, 0, 0, 0]);
            closers.push(vec![151]);
            in_switch = false;
            continue;
        }
        match choice {
            0 => {
                image.push(129);
                closers.push(vec![151]);
            }
            1 => {
                image.extend(words(130, &[0]));
                closers.push(vec![151, 151]);
            }
            2 => {
                image.extend(words(130, &[0]));
                image.push(151);
                closers.push(vec![151]);
            }
            3 => {
                image.extend(words(131, &[0]));
                closers.push(vec![154]);
                in_switch = true;
            }
            4 => {
                image.push(132);
                closers.push([vec![151], words(152, &[0])].concat());
            }
            _ => {
                image.extend([132, 151]);
                closers.push(words(152, &[ABSENT]));
            }
        }
    }
    if !in_switch {
        image.extend(words(135, &[value.unwrap_or(ABSENT)]));
    }
    if closed {
        for closer in closers.iter().rev() {
            image.extend(closer);
        }
        image.push(31);
    }
    image
}
