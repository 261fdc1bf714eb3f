//! All short images: of up to two bytes, and lists of up to three of forty small records.
use crate::layout::ABSENT;
use crate::writer::words;

/// How many images of up to two bytes there are.
pub const SHORT: u64 = 1 + 256 + 65_536;

pub fn short(number: u64) -> Vec<u8> {
    match number {
        0 => vec![],
        1..=256 => vec![(number - 1) as u8],
        _ => ((number - 257) as u16).to_be_bytes().to_vec(),
    }
}

/// Lists of records of an alphabet, by number.
pub struct Lists {
    alphabet: Vec<Vec<u8>>,
}

impl Lists {
    pub fn new() -> Self {
        Lists {
            alphabet: alphabet(),
        }
    }

    /// How many lists of up to three records there are.
    fn plain(&self) -> u64 {
        let letters = self.alphabet.len() as u64;
        1 + letters + letters.pow(2) + letters.pow(3)
    }

    /// Each list stands by itself and, again, in a function.
    pub fn count(&self) -> u64 {
        2 * self.plain()
    }

    pub fn image(&self, number: u64) -> Vec<u8> {
        if number < self.plain() {
            return self.list(number);
        }
        let mut image = words(11, &[1, ABSENT]);
        image.extend(self.list(number - self.plain()));
        image.push(31);
        image
    }

    fn list(&self, mut number: u64) -> Vec<u8> {
        let letters = self.alphabet.len() as u64;
        let mut length = 0;
        while number >= letters.pow(length) {
            number -= letters.pow(length);
            length += 1;
        }
        let mut image = Vec::new();
        for _ in 0..length {
            image.extend(&self.alphabet[(number % letters) as usize]);
            number /= letters;
        }
        image
    }
}

fn alphabet() -> Vec<Vec<u8>> {
    let pending = [&words(23, &[9, 0])[..], &[1, 0, 0, 0, 0], &[4, 0, 0, 0]].concat();
    let letters = vec![
        words(1, &[1, 0, 1, 0]),
        words(2, &[0]),
        words(3, &[1, 1, 0, ABSENT]),
        words(3, &[1, 1, 0, 0]),
        words(4, &[1, 0, 0]),
        words(5, &[1, 1, 1, 0, ABSENT, 1]),
        words(6, &[0, ABSENT, ABSENT, 0, 0]),
        words(8, &[1, ABSENT]),
        words(8, &[1, 0]),
        words(9, &[0]),
        words(11, &[1, 0]),
        words(11, &[1, ABSENT]),
        words(13, &[1, 0, 1]),
        words(14, &[0, 1]),
        words(15, &[1, 0, 0]),
        words(16, &[1, 1]),
        words(21, &[1, 0, 1]),
        pending,
        words(24, &[1, 4]),
        words(30, &[0, 1]),
        vec![31],
        words(64, &[1]),
        words(65, &[0]),
        words(66, &[0]),
        words(67, &[0]),
        words(68, &[0]),
        words(74, &[0]),
        words(75, &[0]),
        words(80, &[1, 0]),
        words(87, &[0]),
        words(128, &[0, 1]),
        vec![129],
        words(130, &[0]),
        words(131, &[0]),
        vec![132],
        words(144, &[0, ABSENT]),
        vec![151],
        words(152, &[0]),
        vec![153, 1, 0, 0, 0, 0],
        vec![154],
    ];
    assert_eq!(letters.len(), 40);
    letters
}
