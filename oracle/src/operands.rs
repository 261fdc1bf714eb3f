//! Small tables whose last item takes one that is deep, in the place of each of its operands in turn, and for all others
//! one that is not.
use crate::catalogue::each_record;
use crate::layout::{Table, ABSENT};
use crate::writer::{places, set_word, words};

/// The deep item. In a table of expressions it is the only one that is not steady.
const DEEP: u32 = 3;

/// The images, for each kind and case of types and expressions.
pub fn images() -> Vec<Vec<u8>> {
    each_record().iter().flat_map(|it| around(it)).collect()
}

/// The images for a record whose handles are all 0.
fn around(record: &[u8]) -> Vec<Vec<u8>> {
    match record[0] {
        24 => of_types(taking(record, |ty| words(1, &[1, ty, 0, 8]))),
        16..=29 => of_types(each_deep(record, Table::Type)),
        68 => of_expressions(taking(record, |operand| words(2, &[operand]))),
        64..=97 => of_expressions(each_deep(record, Table::Expression)),
        _ => Vec::new(),
    }
}

/// The record, and it with each handle of a table in turn that of the deep item.
fn each_deep(record: &[u8], table: Table) -> Vec<Vec<u8>> {
    let mut all = vec![record.to_vec()];
    for place in places(record).into_iter().filter(|it| it.table == table) {
        let mut changed = record.to_vec();
        set_word(&mut changed, place.at, DEEP);
        all.push(changed);
    }
    all
}

/// The record behind three that it takes, of which each in turn names the deep item.
fn taking(record: &[u8], taken: impl Fn(u32) -> Vec<u8>) -> Vec<Vec<u8>> {
    let one = |deep: usize| {
        let mut numbers = [0; 3];
        numbers[deep] = DEEP;
        let mut image = numbers.map(&taken).concat();
        image.extend(record);
        image
    };
    (0..3).map(one).collect()
}

/// Four types, and an override for sizes, before each.
fn of_types(lasts: Vec<Vec<u8>>) -> Vec<Vec<u8>> {
    let pointer = |number: u32| words(21, &[number, number - 1, 1]);
    let front = [
        words(16, &[0, 1]),
        pointer(1),
        pointer(2),
        pointer(DEEP),
        words(3, &[1, 1, 0, ABSENT]),
    ];
    let image = |last: Vec<u8>| [front.concat(), last].concat();
    lasts.into_iter().map(image).collect()
}

/// Four expressions before each, among the global ones and in a function, with an item of each table that they name.
fn of_expressions(lasts: Vec<Vec<u8>>) -> Vec<Vec<u8>> {
    let front = [
        words(16, &[0, 1]),
        words(64, &[1]),
        words(4, &[1, 0, 0]),
        words(3, &[1, 1, 0, ABSENT]),
        words(5, &[1, 1, 1, 0, ABSENT, 1]),
    ];
    let others = [
        words(80, &[1, 0]),
        words(80, &[1, 1]),
        words(83, &[1, 1, DEEP - 1]),
    ];
    let opener = words(11, &[1, ABSENT]);
    let body = [
        opener.clone(),
        vec![31],
        opener,
        words(13, &[1, 0, 1]),
        words(13, &[2, 0, 1]),
        words(15, &[1, 0, ABSENT]),
        words(64, &[1]),
    ];
    let mut images = Vec::new();
    for last in lasts {
        images.push([front.concat(), others.concat(), last.clone()].concat());
        let inner = [body.concat(), others.concat(), last, vec![31]];
        images.push([front.concat(), inner.concat()].concat());
    }
    images
}
