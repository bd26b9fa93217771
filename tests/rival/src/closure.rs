//! Congruence closure over a union-find that keeps offsets.

use crate::Column;
use second_solver::tables::{
    Input, BLOCK_DISEQUALITY, DEREFERENCE, DISEQUALITY, EQUALITY, LIMIT, VARIABLE,
};

const NONE: u16 = u16::MAX;

/// Slots of the table of addresses. A dereference is entered once, and again
/// where it is in the shorter of two lists that are joined: at most
/// n + n / 2 × log n times in all, which is less than 8 n.
const SLOTS: usize = 8 * LIMIT;

/// Classes of terms. Links go from higher to lower numbers, so that the root of
/// a class is its representative.
pub struct Closure {
    /// t ≡ offset[t] + parent[t]; a root is its own parent at offset 0.
    parent: Column<u16>,
    offset: Column<i64>,
    /// The dereferences over each class, one for each address that is read, in
    /// the list of this number. The address x + root is entered in the table
    /// as x + base.
    list: Column<u16>,
    base: Column<i64>,
    /// By list: its first dereference and how many it has.
    first: Column<u16>,
    length: Column<u16>,
    /// By dereference: the next in its list, and its key in the table.
    next: Column<u16>,
    key: Column<u64>,
    /// One dereference, plus one, for each list and address, in open
    /// addressing; 0 in an empty slot. Those of a list that has been entered
    /// anew stay where they were, under keys that are not theirs any more.
    slots: [u16; SLOTS],
    /// A slot is the key's hash shifted by so much.
    shift: u32,
    /// Dereferences of one address, still to be joined: each is left out of
    /// its list for good, so there are never more than terms.
    pending: Column<(u16, u16)>,
    pending_length: usize,
}

impl Closure {
    #[inline(always)]
    pub fn new() -> Closure {
        Closure {
            parent: [0; LIMIT],
            offset: [0; LIMIT],
            list: [0; LIMIT],
            base: [0; LIMIT],
            first: [NONE; LIMIT],
            length: [0; LIMIT],
            next: [NONE; LIMIT],
            key: [0; LIMIT],
            slots: [0; SLOTS],
            shift: 64 - SLOTS.ilog2(),
            pending: [(0, 0); LIMIT],
            pending_length: 0,
        }
    }

    /// Closes the set of propositions; false on contradiction. Afterwards each
    /// term has its root as parent.
    pub fn close(&mut self, input: &Input) -> bool {
        let n = input.n;
        for t in 0..n {
            self.parent[t] = t as u16;
            self.list[t] = t as u16;
        }
        for record in &input.propositions[..input.m] {
            if record.kind == EQUALITY {
                let (t1, t2) = (record.left as usize, record.right as usize);
                if !self.join(input, t1, record.offset, t2) {
                    return false;
                }
            }
        }
        for d in 0..n {
            if input.terms[d].kind == DEREFERENCE {
                self.enter(input, d);
            }
        }
        while self.pending_length > 0 {
            self.pending_length -= 1;
            let (d1, d2) = self.pending[self.pending_length];
            if !self.join(input, d1.into(), 0, d2.into()) {
                return false;
            }
        }
        self.flatten(n);
        self.is_consistent(input)
    }

    /// The root and the offset from it.
    fn find(&mut self, mut t: usize) -> (usize, i64) {
        let mut offset = 0;
        loop {
            let parent = usize::from(self.parent[t]);
            if parent == t {
                return (t, offset);
            }
            self.offset[t] += self.offset[parent];
            self.parent[t] = self.parent[parent];
            offset += self.offset[t];
            t = self.parent[t].into();
        }
    }

    /// Joins the classes of t1 ≡ z + t2; false where it clashes with what is
    /// known.
    fn join(&mut self, input: &Input, t1: usize, z: i64, t2: usize) -> bool {
        let ((r1, o1), (r2, o2)) = (self.find(t1), self.find(t2));
        // r1 ≡ distance + r2
        let distance = z + o2 - o1;
        if r1 > r2 {
            self.link(input, r1, distance, r2);
        } else if r1 < r2 {
            self.link(input, r2, -distance, r1);
        }
        r1 != r2 || distance == 0
    }

    /// Joins the classes of two roots, high ≡ distance + low. The shorter of
    /// their lists is entered anew.
    fn link(&mut self, input: &Input, high: usize, distance: i64, low: usize) {
        self.parent[high] = low as u16;
        self.offset[high] = distance;
        let mut shorter = usize::from(self.list[high]);
        let longer = usize::from(self.list[low]);
        if self.length[shorter] > self.length[longer] {
            self.list[low] = shorter as u16;
            self.base[low] = self.base[high] - distance;
            shorter = longer;
        }
        let mut d = std::mem::replace(&mut self.first[shorter], NONE);
        while d != NONE {
            let next = self.next[usize::from(d)];
            self.enter(input, d.into());
            d = next;
        }
    }

    /// Enters a dereference; if there is one at its address, the two are
    /// pending, equal by E4, and the new one is in no list.
    fn enter(&mut self, input: &Input, d: usize) {
        let record = &input.terms[d];
        let (root, offset) = self.find(record.number as usize);
        let key = self.key_of(root, offset + record.offset);
        match self.seek(key) {
            Ok(other) => {
                self.pending[self.pending_length] = (d as u16, other as u16);
                self.pending_length += 1;
            }
            Err(slot) => {
                self.slots[slot] = d as u16 + 1;
                self.key[d] = key;
                let list = usize::from(self.list[root]);
                self.next[d] = std::mem::replace(&mut self.first[list], d as u16);
                self.length[list] += 1;
            }
        }
    }

    /// The key of an address in a class. Addresses take less than 48 bits.
    fn key_of(&self, root: usize, address: i64) -> u64 {
        (u64::from(self.list[root]) << 48) | ((address + self.base[root]) as u64 & ((1 << 48) - 1))
    }

    /// The dereference with this key, or the slot for it.
    fn seek(&self, key: u64) -> Result<usize, usize> {
        let mut slot = (key.wrapping_mul(0x9e37_79b9_7f4a_7c15) >> self.shift) as usize;
        loop {
            match self.slots[slot] {
                0 => return Err(slot),
                d if self.key[usize::from(d) - 1] == key => return Ok(usize::from(d) - 1),
                _ => slot = (slot + 1) % SLOTS,
            }
        }
    }

    /// Links each term to its root.
    fn flatten(&mut self, n: usize) {
        for t in 0..n {
            let parent = usize::from(self.parent[t]);
            self.offset[t] += self.offset[parent];
            self.parent[t] = self.parent[parent];
        }
    }

    /// Whether no two variables share a class, no disequality's sides are
    /// equal and no block disequality's sides share a class.
    fn is_consistent(&self, input: &Input) -> bool {
        let mut has_variable = [false; LIMIT];
        for t in 0..input.n {
            if input.terms[t].kind == VARIABLE
                && std::mem::replace(&mut has_variable[self.root(t)], true)
            {
                return false;
            }
        }
        input.propositions[..input.m].iter().all(|record| {
            let (t1, t2) = (record.left as usize, record.right as usize);
            let equal = self.offset[t1] - self.offset[t2] == record.offset;
            self.root(t1) != self.root(t2)
                || match record.kind {
                    DISEQUALITY => !equal,
                    kind => kind != BLOCK_DISEQUALITY,
                }
        })
    }

    // After `close`

    pub fn root(&self, t: usize) -> usize {
        self.parent[t].into()
    }

    pub fn offset(&self, t: usize) -> i64 {
        self.offset[t]
    }

    /// The dereferences over a class, one for each address that is read.
    pub fn reads(&self, root: usize) -> impl Iterator<Item = usize> + '_ {
        let first = self.first[usize::from(self.list[root])];
        let some = |d: u16| (d != NONE).then_some(d);
        std::iter::successors(some(first), move |&d| some(self.next[usize::from(d)]))
            .map(usize::from)
    }

    /// The one of them that reads this address.
    pub fn read_at(&self, root: usize, address: i64) -> Option<usize> {
        self.seek(self.key_of(root, address)).ok()
    }
}
