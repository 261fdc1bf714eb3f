//! Images with two handles out of their tables, which show in what order naga tests them.
use crate::catalogue::{around, each_record};
use crate::layout::ABSENT;
use crate::writer::{handle_places, set_word, words};

/// For each kind of record each two of its handles, and each two of one module that has nearly all.
pub fn images() -> Vec<Vec<u8>> {
    let mut images = Vec::new();
    for record in each_record() {
        for changed in pairs(&[record]) {
            images.extend(around(&changed.concat()));
        }
    }
    let whole = whole();
    images.push(whole.concat());
    images.extend(pairs(&whole).iter().map(|records| records.concat()));
    images
}

/// The records with each two of their handles changed: both are behind every table, and they differ.
fn pairs(records: &[Vec<u8>]) -> Vec<Vec<Vec<u8>>> {
    let places: Vec<(usize, usize)> = records
        .iter()
        .enumerate()
        .flat_map(|(number, record)| places(record).into_iter().map(move |at| (number, at)))
        .collect();
    let mut changed = Vec::new();
    for (number, &one) in places.iter().enumerate() {
        for &other in &places[number + 1..] {
            let mut records = records.to_vec();
            set_word(&mut records[one.0], one.1, 1000);
            set_word(&mut records[other.0], other.1, 2000);
            changed.push(records);
        }
    }
    changed
}

/// Where the handles of a record stand, or the start of a range.
fn places(record: &[u8]) -> Vec<usize> {
    match record[0] {
        128 => vec![1],
        _ => handle_places(record),
    }
}

/// A module that passes, with items of every table and blocks of every kind.
fn whole() -> Vec<Vec<u8>> {
    let sized = [&words(23, &[13, 0])[..], &[1, 0, 0, 0, 0], &[4, 0, 0, 0]].concat();
    let dynamic = [&words(29, &[14, 0])[..], &[2], &[0xFF; 4]].concat();
    let mut records = vec![
        words(16, &[10, 1]),
        words(16, &[11, 1]),
        words(21, &[12, 0, 1]),
        sized,
        dynamic,
        words(1, &[1, 0, 1, 0]),
        words(1, &[2, 1, 1, 4]),
        words(24, &[15, 8]),
        words(64, &[1]),
        words(65, &[0]),
        words(66, &[0]),
        words(67, &[0]),
        words(2, &[0]),
        words(2, &[1]),
        words(68, &[0]),
        words(4, &[1, 0, 0]),
        words(3, &[1, 1, 0, 0]),
        words(5, &[1, 1, 1, 0, 0, 1]),
        words(6, &[0; 5]),
        words(7, &[1, 0]),
        words(8, &[1, ABSENT]),
        words(8, &[1, 0]),
        words(9, &[0]),
        words(11, &[1, ABSENT]),
        vec![31],
    ];
    records.extend(body(words(11, &[1, 0])));
    records.extend(body(entry_point()));
    records
}

/// An entry point all of whose handles are 0.
fn entry_point() -> Vec<u8> {
    let mut record = words(12, &[1, 1, 1, 1, 0, 0, 0, 0]);
    record.push(1);
    record.extend([0; 40]);
    record
}

fn body(opener: Vec<u8>) -> Vec<Vec<u8>> {
    let answer = || words(135, &[0]);
    let end = || vec![151];
    vec![
        opener,
        words(13, &[1, 0, 1]),
        words(14, &[0, 1]),
        words(15, &[1, 0, 0]),
        words(30, &[0, 1]),
        words(64, &[1]),
        words(65, &[0]),
        words(2, &[0]),
        words(2, &[1]),
        words(68, &[0]),
        words(81, &[1, 0, 1]),
        words(87, &[0]),
        words(128, &[0, 2]),
        vec![129],
        answer(),
        end(),
        words(130, &[0]),
        answer(),
        end(),
        answer(),
        end(),
        words(131, &[0]),
        vec![153, 1, 0, 0, 0, 0],
        answer(),
        end(),
        vec![153, 2, 0, 0, 0, 1],
        words(128, &[0, 1]),
        end(),
        vec![154],
        vec![132],
        answer(),
        end(),
        answer(),
        words(152, &[0]),
        words(2, &[0]),
        words(2, &[1]),
        words(144, &[0, 0]),
        vec![31],
    ]
}
