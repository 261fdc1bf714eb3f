//! Images with errors: bytes changed, images cut short, records left out, twice there or in another order.
use crate::random::Random;

/// An image of these records with one to three changes.
pub fn damaged(mut records: Vec<Vec<u8>>, random: &mut Random) -> Vec<u8> {
    for _ in 0..random.below(3) {
        change_records(&mut records, random);
    }
    let mut image = records.concat();
    if random.chance(700) {
        change_bytes(&mut image, random);
    }
    image
}

fn change_records(records: &mut Vec<Vec<u8>>, random: &mut Random) {
    if records.is_empty() {
        return;
    }
    let one = random.below(records.len());
    let other = random.below(records.len());
    match random.below(4) {
        0 => drop(records.remove(one)),
        1 => records.swap(one, other),
        2 => {
            let copy = records[one].clone();
            records.insert(other, copy);
        }
        _ => {
            let end = (one + 1).min(records.len() - 1);
            records.swap(one, end);
        }
    }
}

fn change_bytes(image: &mut Vec<u8>, random: &mut Random) {
    if image.is_empty() {
        return;
    }
    let at = random.below(image.len());
    match random.below(5) {
        0 => image.truncate(at),
        1 => drop(image.remove(at)),
        2 => image.insert(at, random.next() as u8),
        3 => image[at] = random.pick(&[0, 1, 2, 0xFE, 0xFF]),
        _ => image[at] = random.next() as u8,
    }
}
