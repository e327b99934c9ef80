//! Whether one or two cells carry a table, by networks alone.
//!
//! Nothing here knows of splits, columns or chains: a cell reads any earlier
//! signals and has any table. A cell may ignore what it reads, so it is enough
//! to look at cells that read as many signals as they may, each once.

use crate::sets::{all, members, size};
use crate::table::Table;

/// Up to this cell size every table of the first cell is tried in turn.
pub const MOST_TRIED: usize = 3;

/// What a cell reads: a set of inputs, and for each assignment the entry of the
/// cell's table at which those inputs stand.
pub struct Reads {
    set: u16,
    entries: Vec<u8>,
}

impl Reads {
    pub fn new(n: usize, set: u16) -> Reads {
        // A cell has at most 8 inputs, so 256 entries.
        let places: Vec<(usize, usize)> = members(set).into_iter().enumerate().collect();
        let entry = |x: usize| places.iter().map(|(i, j)| ((x >> j) & 1) << i).sum::<usize>();
        Reads { set, entries: (0..1 << n).map(|x| entry(x) as u8).collect() }
    }

    /// All that a cell with this many places may read.
    fn all(n: usize, places: usize) -> Vec<Reads> {
        let sets = (0..=all(n)).filter(|&set| size(set) == places.min(n));
        sets.map(|set| Reads::new(n, set)).collect()
    }
}

/// The networks of one and of two cells of size K over n inputs.
pub struct Networks {
    k: usize,
    /// What a cell may read: K inputs, or one less beside the first cell's output.
    full: Vec<Reads>,
    beside: Vec<Reads>,
}

impl Networks {
    pub fn new(n: usize, k: usize) -> Networks {
        Networks { k, full: Reads::all(n, k), beside: Reads::all(n, k - 1) }
    }

    /// Whether one cell carries the table.
    pub fn one(&self, table: &Table) -> bool {
        self.full.iter().any(|reads| {
            let mut cell: Vec<Option<bool>> = vec![None; 1 << size(reads.set)];
            let mut demands = reads.entries.iter().zip(&table.bits);
            demands.all(|(&entry, &bit)| *cell[usize::from(entry)].get_or_insert(bit) == bit)
        })
    }

    /// Whether two cells carry the table: the first reads inputs, the second
    /// reads inputs and the first cell's output.
    pub fn two(&self, table: &Table) -> bool {
        let needed = table.counting();
        self.full.iter().any(|first| {
            // What no cell reads cannot change the output.
            let all_read = |second: &&Reads| needed & !(first.set | second.set) == 0;
            let wirings = self.beside.iter().filter(all_read);
            wirings.map(|second| Wiring { table, first, second }).any(|wiring| match self.k {
                0..=MOST_TRIED => wiring.tried(),
                _ => wiring.decided(),
            })
        })
    }

    /// One or two, where so many cells can carry the table.
    pub fn fewest(&self, table: &Table) -> Option<usize> {
        if self.one(table) {
            return Some(1);
        }
        self.two(table).then_some(2)
    }
}

/// Two cells with their reads fixed and their tables open.
pub struct Wiring<'a> {
    pub table: &'a Table,
    pub first: &'a Reads,
    pub second: &'a Reads,
}

impl Wiring<'_> {
    /// For each assignment: the entry of the first cell, what the inputs make
    /// of the entry of the second, and the bit that must come out.
    fn demands(&self) -> impl Iterator<Item = (usize, usize, bool)> + '_ {
        let entries = self.first.entries.iter().zip(&self.second.entries);
        let entries = entries.map(|(&first, &second)| (usize::from(first), usize::from(second)));
        entries.zip(&self.table.bits).map(|((first, second), &bit)| (first, second, bit))
    }

    /// Tries every table of the first cell in turn; the second cell's table is
    /// then what it must be, unless an entry must be two things at once.
    pub fn tried(&self) -> bool {
        let output_place = size(self.second.set);
        (0..1u64 << (1 << size(self.first.set))).any(|first| {
            let mut second: Vec<Option<bool>> = vec![None; 2 << output_place];
            self.demands().all(|(entry, inputs, bit)| {
                let output = (first >> entry) as usize & 1;
                *second[inputs | output << output_place].get_or_insert(bit) == bit
            })
        })
    }

    /// The same for cells whose tables are too many to be tried. Two
    /// assignments that look alike to the second cell's inputs and must come
    /// out differently need different outputs of the first cell, and nothing
    /// else is asked of it: it is enough that the entries of the first cell can
    /// be put on two sides so that each such pair is parted.
    pub fn decided(&self) -> bool {
        // For each assignment of the second cell's inputs: an entry that must
        // give 0 there and one that must give 1.
        let mut met: Vec<[Option<usize>; 2]> = vec![[None; 2]; 1 << size(self.second.set)];
        for (entry, inputs, bit) in self.demands() {
            met[inputs][usize::from(bit)] = Some(entry);
        }
        let mut sides = Sides::new(1 << size(self.first.set));
        self.demands().all(|(entry, inputs, bit)| match met[inputs] {
            [Some(zero), Some(one)] => {
                let like = if bit { one } else { zero };
                sides.put(zero, one, true) && sides.put(like, entry, false)
            }
            _ => true,
        })
    }
}

/// Things on two sides, some of them bound to each other.
struct Sides {
    /// The one that each is bound to, and whether it stands across from it.
    bound: Vec<(usize, bool)>,
}

impl Sides {
    /// So many things, none bound to another.
    fn new(count: usize) -> Sides {
        Sides { bound: (0..count).map(|thing| (thing, false)).collect() }
    }

    /// Puts two across from each other, or on the same side; false if they are
    /// bound otherwise already.
    fn put(&mut self, one: usize, two: usize, across: bool) -> bool {
        let (to, turned) = self.bound[one];
        let (from, turned_too) = self.bound[two];
        let turn = turned ^ turned_too ^ across;
        if from == to {
            return !turn;
        }
        for (leader, side) in self.bound.iter_mut().filter(|(leader, _)| *leader == from) {
            *leader = to;
            *side ^= turn;
        }
        true
    }
}
