//! Pairs of places of two classes by their distance. Between two large classes
//! there may be many more facts than places, so looking at every place for each
//! fact takes too long.

use crate::Column;
use second_solver::tables::LIMIT;

/// A class is large if it has so many places; the others are searched.
const LARGE: u16 = 8;
/// A table takes about as long for each pair of places as so many steps of a
/// search.
const STEPS: usize = 2;

const NONE: u32 = u32::MAX;
/// A table that has not been made.
const SEARCHED: u16 = u16::MAX;

#[derive(Clone, Copy)]
pub struct Pair {
    pub distance: i64,
    pub first: u16,
    pub second: u16,
    next: u32,
}

/// The pairs of places of two classes, hashed by distance.
struct Table {
    shift: u32,
    slots: Vec<u32>,
    pairs: Vec<Pair>,
}

pub struct Distances {
    /// By class: the number of a large class, from 1.
    number: Column<u8>,
    numbers: usize,
    /// By the numbers of two large classes, the lower class first: the steps of
    /// searches so far, and the table.
    between: Vec<(u32, u16)>,
    tables: Vec<Table>,
}

impl Distances {
    #[inline(always)]
    pub fn new() -> Distances {
        Distances {
            number: [0; LIMIT],
            numbers: 0,
            between: Vec::new(),
            tables: Vec::new(),
        }
    }

    /// Numbers the large classes.
    pub fn number(&mut self, places: &[u16]) {
        for (c, &places) in places.iter().enumerate() {
            if places >= LARGE {
                self.numbers += 1;
                self.number[c] = self.numbers as u8;
            }
        }
        if self.numbers > 1 {
            self.between
                .resize(self.numbers * self.numbers, (0, SEARCHED));
        }
    }

    /// Where two large classes stand in `between`.
    fn index(&self, c1: usize, c2: usize) -> Option<usize> {
        let (k1, k2) = (usize::from(self.number[c1]), usize::from(self.number[c2]));
        (k1 != 0 && k2 != 0).then(|| (k1 - 1) * self.numbers + k2 - 1)
    }

    /// Counts the steps of a search, and tells whether a table of so many pairs
    /// has been made, which is then to be filled by `add`.
    pub fn count(&mut self, c1: usize, c2: usize, steps: usize, pairs: usize) -> bool {
        let Some(index) = self.index(c1, c2) else {
            return false;
        };
        let (all, table) = &mut self.between[index];
        *all += steps as u32;
        if *all as usize <= STEPS * pairs {
            return false;
        }
        *table = self.tables.len() as u16;
        let bits = (2 * pairs).ilog2();
        self.tables.push(Table {
            shift: 64 - bits,
            slots: vec![NONE; 1 << bits],
            pairs: Vec::with_capacity(pairs),
        });
        true
    }

    /// Adds a pair of places to the last table.
    pub fn add(&mut self, distance: i64, first: usize, second: usize) {
        let table = self.tables.last_mut().expect("a table has been made");
        let slot = slot_of(distance, table.shift);
        let next = std::mem::replace(&mut table.slots[slot], table.pairs.len() as u32);
        let (first, second) = (first as u16, second as u16);
        table.pairs.push(Pair {
            distance,
            first,
            second,
            next,
        });
    }

    /// The table of two classes.
    pub fn table(&self, c1: usize, c2: usize) -> Option<usize> {
        let (_, table) = self.between[self.index(c1, c2)?];
        (table != SEARCHED).then_some(table.into())
    }

    /// A pair of a table at this distance: the next after another one, or the
    /// first.
    pub fn pair(&self, table: usize, distance: i64, after: Option<Pair>) -> Option<Pair> {
        let table = &self.tables[table];
        let mut k = match after {
            None => table.slots[slot_of(distance, table.shift)],
            Some(pair) => pair.next,
        };
        while k != NONE {
            let pair = table.pairs[k as usize];
            if pair.distance == distance {
                return Some(pair);
            }
            k = pair.next;
        }
        None
    }
}

fn slot_of(distance: i64, shift: u32) -> usize {
    ((distance as u64).wrapping_mul(0x9e37_79b9_7f4a_7c15) >> shift) as usize
}
