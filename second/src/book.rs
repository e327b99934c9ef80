//! Three-input tables that differ only by swapped inputs, flipped inputs or a flipped output.

/// The second table at x is the first at y, flipped if so said, where bit j of y
/// is bit pj of x, flipped if bit j of the mask is set.
#[derive(Clone, Copy, Debug, PartialEq, Eq)]
pub struct Way {
    pub flip: bool,
    pub mask: u8,
    pub p: [u8; 3],
}

/// Every way: by output flip, then the mask of input flips, then p0 p1 p2 read as
/// one number.
pub fn ways() -> Vec<Way> {
    let digits = (0..=222).map(|number| [number / 100, number / 10 % 10, number % 10]);
    let orders: Vec<[u8; 3]> = digits.filter(|p| (0..3).all(|input| p.contains(&input))).collect();
    let mut list = Vec::new();
    for flip in [false, true] {
        for mask in 0..8 {
            list.extend(orders.iter().map(|&p| Way { flip, mask, p }));
        }
    }
    list
}

fn bit(number: u8, place: u8) -> bool {
    number >> place & 1 == 1
}

/// The table that a way makes of another.
pub fn turned(way: &Way, first: u8) -> u8 {
    let mut second = 0;
    for x in 0..8 {
        let mut y = 0;
        for j in 0..3 {
            if bit(x, way.p[usize::from(j)]) != bit(way.mask, j) {
                y |= 1 << j;
            }
        }
        if bit(first, y) != way.flip {
            second |= 1 << x;
        }
    }
    second
}

/// The first way that turns one table into the other.
pub fn first_way(first: u8, second: u8) -> Option<Way> {
    ways().into_iter().find(|way| turned(way, first) == second)
}

/// The least number that is reachable.
pub fn least(table: u8) -> u8 {
    ways().iter().map(|way| turned(way, table)).min().expect("some way")
}
