//! A hash table of places in a list of entries, with open addressing.

/// No entry has this place.
const FREE: u32 = u32::MAX;

#[derive(Clone, Default)]
pub(crate) struct Index {
    /// A power of two of places, or none; at most three quarters are taken.
    places: Vec<u32>,
    /// The hash of each entry.
    hashes: Vec<u64>,
}

impl Index {
    pub(crate) fn clear(&mut self) {
        self.places.fill(FREE);
        self.hashes.clear();
    }

    /// The place of the entry with this hash for which `equal` holds.
    pub(crate) fn find(&self, hash: u64, equal: impl Fn(usize) -> bool) -> Option<usize> {
        if self.places.is_empty() {
            return None;
        }
        let mask = self.places.len() - 1;
        let mut at = home(hash, mask);
        while self.places[at] != FREE {
            let place = self.places[at] as usize;
            if self.hashes[place] == hash && equal(place) {
                return Some(place);
            }
            at = (at + 1) & mask;
        }
        None
    }

    /// Adds the next entry, which is not there yet.
    pub(crate) fn push(&mut self, hash: u64) {
        if 4 * (self.hashes.len() + 1) > 3 * self.places.len() {
            self.grow();
        }
        self.take(self.hashes.len(), hash);
        self.hashes.push(hash);
    }

    fn grow(&mut self) {
        let size = (2 * self.places.len()).max(8);
        self.places = vec![FREE; size];
        for place in 0..self.hashes.len() {
            self.take(place, self.hashes[place]);
        }
    }

    fn take(&mut self, place: usize, hash: u64) {
        let mask = self.places.len() - 1;
        let mut at = home(hash, mask);
        while self.places[at] != FREE {
            at = (at + 1) & mask;
        }
        self.places[at] = place as u32;
    }
}

/// Where the search for a hash begins. The high bits of a product depend on all of the factor.
fn home(hash: u64, mask: usize) -> usize {
    (hash.wrapping_mul(0x9e37_79b9_7f4a_7c15) >> 32) as usize & mask
}
