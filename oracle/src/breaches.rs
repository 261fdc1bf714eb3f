//! Small modules with each word that only sealing tests in turn at and behind its limits, each two of them together, and
//! each with a handle that the check refuses: these show the order of the tests of sealing.
use crate::layout::ABSENT;
use crate::unchecked::{Outline, Word, OF_BODIES};
use crate::writer::{handle_places, set_word, words};

type Records = Vec<Vec<u8>>;

const KILL: u8 = 136;

/// The images.
pub fn images() -> Vec<Vec<u8>> {
    let whole = whole();
    let mut images = vec![whole.concat()];
    images.extend(single(&whole));
    images.extend(pairs(&whole));
    images.extend(misplaced(&whole));
    images.extend(behind_the_check(&whole));
    images.extend(sizes());
    images
}

fn unchecked(records: &[Vec<u8>]) -> Vec<Word> {
    Outline::of(records).words(records)
}

/// The records with a word changed.
fn changed(records: &[Vec<u8>], word: &Word, number: u32) -> Records {
    let mut records = records.to_vec();
    word.set(&mut records, number);
    records
}

/// Each word below, at and behind its limit, and each type by the types with a size.
fn single(records: &[Vec<u8>]) -> Vec<Vec<u8>> {
    let mut images = Vec::new();
    for word in unchecked(records) {
        let near = word.least.saturating_sub(1)..=word.least + 1;
        for number in near.chain(0..6).chain([1000, ABSENT - 1]) {
            images.push(changed(records, &word, number).concat());
        }
    }
    images
}

/// Each two words at or behind their limits.
fn pairs(records: &[Vec<u8>]) -> Vec<Vec<u8>> {
    let all = unchecked(records);
    let mut images = Vec::new();
    for (number, one) in all.iter().enumerate() {
        let first = changed(records, one, one.least);
        for other in &all[number + 1..] {
            images.push(changed(&first, other, other.least + 1).concat());
        }
    }
    images
}

/// Each kind that stands in bodies only in place of each global expression, alone and with each word at its limit.
fn misplaced(records: &[Vec<u8>]) -> Vec<Vec<u8>> {
    let mut images = Vec::new();
    for at in Outline::of(records).plain_globals(records) {
        for kind in OF_BODIES {
            let mut with = records.to_vec();
            with[at] = words(kind, &[0]);
            images.push(with.concat());
            for word in unchecked(records) {
                if word.record != at {
                    images.push(changed(&with, &word, word.least).concat());
                }
            }
        }
    }
    images
}

/// Each word at its limit together with each handle behind its table.
fn behind_the_check(records: &[Vec<u8>]) -> Vec<Vec<u8>> {
    let mut images = Vec::new();
    for word in unchecked(records) {
        let first = changed(records, &word, word.least);
        for (number, record) in records.iter().enumerate() {
            for at in handle_places(record) {
                let mut both = first.clone();
                set_word(&mut both[number], at, 1000);
                images.push(both.concat());
            }
        }
    }
    images
}

fn array(name: u32, base: u32, size: u32) -> Vec<u8> {
    let size = words(1, &[size]);
    [&words(23, &[name, base])[..], &size, &[4, 0, 0, 0]].concat()
}

fn binding_array(name: u32, base: u32, size: u32) -> Vec<u8> {
    [words(29, &[name, base]), words(1, &[size])].concat()
}

fn flagged(kind: u8, word: u32) -> Vec<u8> {
    [words(kind, &[word]), vec![0]].concat()
}

/// A module that sealing accepts, with every word that only sealing tests.
fn whole() -> Records {
    let mut records = vec![
        words(16, &[10, 1]),
        words(16, &[11, 1]),
        array(12, 0, 0),
        binding_array(13, 1, 1),
        words(16, &[14, 1]),
        words(4, &[1, 0, 0]),
        words(4, &[1, 1, 1]),
        words(4, &[1, 4, 12]),
        words(3, &[1, 1, 0, 8]),
        words(3, &[2, 2, 1, 10]),
        words(3, &[3, 3, 0, ABSENT]),
        words(3, &[4, 4, 1, 2]),
        words(5, &[1, 1, 1, 0, ABSENT, 1]),
        words(5, &[2, 1, 1, 4, 3, 1]),
        words(6, &[0, 0, 0, 100, 100]),
        words(6, &[0; 5]),
        words(7, &[1, 0]),
        words(7, &[1, 1]),
        words(7, &[2, 4]),
    ];
    records.extend(global_expressions());
    for opener in [words(11, &[1, ABSENT]), words(11, &[2, ABSENT])] {
        records.push(opener);
        records.extend(body(None));
    }
    records.push(words(11, &[3, ABSENT]));
    records.extend(body(Some(1)));
    for callee in [0, 2] {
        records.push(entry_point());
        records.extend(body(Some(callee)));
    }
    records
}

fn global_expressions() -> Records {
    let sample = [
        &words(77, &[0, 1, ABSENT, 2, 3, 4])[..],
        &words(4, &[5, 6])[..],
        &7u32.to_le_bytes()[..],
        &[0],
    ]
    .concat();
    vec![
        words(64, &[1]),
        words(67, &[0]),
        words(65, &[0]),
        words(66, &[2]),
        words(2, &[0]),
        words(2, &[1]),
        words(68, &[0]),
        words(81, &[1, 0, 1]),
        flagged(88, 0),
        words(89, &[0]),
        words(95, &[0]),
        words(66, &[3]),
        words(65, &[1]),
        words(82, &[0, 1, 2]),
        words(64, &[2]),
        sample,
        words(95, &[4]),
    ]
}

/// An entry point all of whose handles but filters are 0.
fn entry_point() -> Vec<u8> {
    let head = words(12, &[1, 1, 1, 1, 0, 0, 0, ABSENT]);
    let mesh = words(1, &[1, 1, 0, 1, 0, 0, 0, 0]);
    [head, mesh, vec![0; 8]].concat()
}

fn image_atomic(compare: u32) -> Vec<u8> {
    let head = words(142, &[0, 1, ABSENT]);
    [head, words(7, &[compare]), vec![0; 4]].concat()
}

/// The rest of a body, with calls of a function where one is given.
fn body(callee: Option<u32>) -> Records {
    let call = || match callee {
        Some(callee) => vec![words(2, &[0]), words(144, &[callee, ABSENT])],
        None => vec![vec![KILL]],
    };
    let mut records = vec![
        words(13, &[1, 0, 1]),
        words(73, &[0]),
        words(73, &[1]),
        words(13, &[2, 1, 1]),
        words(67, &[1]),
        words(2, &[0]),
        words(68, &[1]),
        flagged(88, 1),
        words(89, &[1]),
        words(95, &[1]),
        words(64, &[1]),
    ];
    records.extend(call());
    records.extend([image_atomic(0), words(130, &[0]), image_atomic(1)]);
    records.extend([vec![151], vec![151], words(131, &[0])]);
    records.push([words(153, &[1]), vec![0]].concat());
    records.extend(call());
    records.extend([vec![151], vec![154], vec![132]]);
    records.extend([image_atomic(2), vec![151], image_atomic(3)]);
    records.extend([words(152, &[0]), vec![129], image_atomic(ABSENT)]);
    records.extend([vec![151], image_atomic(6), vec![31]]);
    records
}

/// Two types whose sizes are overrides, and three global expressions of which one names a type: with each init of the
/// overrides, each type and each way to name it, in each place.
fn sizes() -> Vec<Vec<u8>> {
    let mut images = Vec::new();
    for first in [0, 1, 2, 3, ABSENT] {
        for second in [0, 2, ABSENT] {
            for ty in 0..6 {
                for expressions in namings(ty) {
                    let arrays = [array(11, 0, 0), binding_array(13, 0, 1)];
                    images.push(sized(arrays, [first, second], ty, &expressions));
                    let arrays = [binding_array(11, 0, 0), array(13, 0, 1)];
                    images.push(sized(arrays, [first, second], ty, &expressions));
                }
            }
        }
    }
    images
}

/// Three expressions of which one names this type, itself or by constant 0 or override 2 of `sized`.
fn namings(ty: u32) -> Vec<Records> {
    let naming = [
        words(65, &[0]),
        words(66, &[2]),
        words(67, &[ty]),
        words(68, &[ty]),
        flagged(88, ty),
        words(89, &[ty]),
        words(95, &[ty]),
    ];
    let mut lists = Vec::new();
    for record in naming {
        for place in 0..3 {
            let mut list = vec![words(64, &[1]); 3];
            list[place] = record.clone();
            lists.push(list);
        }
    }
    lists
}

/// A module of two arrays sized by overrides with these inits, a constant and an override of a type, and expressions.
fn sized(arrays: [Vec<u8>; 2], inits: [u32; 2], ty: u32, expressions: &[Vec<u8>]) -> Vec<u8> {
    let [first, second] = arrays;
    let mut records = vec![
        words(16, &[10, 1]),
        first,
        words(16, &[12, 1]),
        second,
        words(16, &[14, 1]),
        words(3, &[1, 1, 0, inits[0]]),
        words(3, &[2, 2, 0, inits[1]]),
        words(3, &[3, 3, ty, ABSENT]),
        words(4, &[1, ty, 0]),
    ];
    records.extend_from_slice(expressions);
    records.concat()
}
