//! The calls through this crate, held against each other on fresh gates: what one says the others
//! must bear out. The same struct handed over wrongly would not.

use pelzurivan::*;

/// Fresh numbers from a seed.
struct Fresh(u64);

impl Fresh {
    fn number(&mut self) -> u64 {
        self.0 ^= self.0 << 13;
        self.0 ^= self.0 >> 7;
        self.0 ^= self.0 << 17;
        self.0
    }

    fn below(&mut self, n: u64) -> u64 {
        self.number() % n
    }

    /// A formula that reads each of n letters once, so that cells of two inputs make a sheet of it.
    fn tree(&mut self, from: u8, to: u8) -> String {
        if from + 1 == to {
            let sign = ["", "!"][self.below(2) as usize];
            return format!("{sign}{}", char::from(b'a' + from));
        }
        let at = from + 1 + self.below(u64::from(to - from - 1)) as u8;
        let by = ["&", "|", "^"][self.below(3) as usize];
        format!("({}{by}{})", self.tree(from, at), self.tree(at, to))
    }

    /// A gate: its inputs and its table.
    fn gate(&mut self) -> (u64, Vec<u8>) {
        let n = 2 + self.below(9);
        let text = self.tree(0, n as u8);
        let mut table = vec![0; table_length(n as usize)];
        read_formula(n, text.as_bytes(), &mut table).unwrap();
        (n, table)
    }
}

fn bit(bytes: &[u8], x: u64) -> bool {
    bytes[x as usize / 8] >> (x % 8) & 1 == 1
}

/// A sheet of a fresh gate in cells of two for a desk, with its inputs and its table.
fn sheet_for(fresh: &mut Fresh, desk: u64) -> (u64, Vec<u8>, Vec<u8>) {
    let (n, table) = fresh.gate();
    let mut sheet = vec![0; SHEET];
    let count = make_for_desk(n, 2, desk, &table, &mut sheet, &mut [7; WORK]).unwrap();
    sheet.truncate(count * RECORD);
    (n, table, sheet)
}

#[test]
fn a_made_sheet_is_the_gate() {
    let mut fresh = Fresh(1);
    for _ in 0..50 {
        let (n, table, sheet) = sheet_for(&mut fresh, 0);
        let mut again = vec![0; SHEET];
        let mut work = vec![7; WORK];
        let count = make(n, 2, &table, &mut again, &mut work).unwrap();
        assert_eq!(again[..count * RECORD], sheet[..]);
        assert_eq!(make_any(n, 2, 0, &table, &mut again, &mut work), Ok(count));
        assert_eq!(bound(1, n, 2, &table, &mut work), Ok(count));
        assert_eq!(check(n, &table, &sheet), Ok(()));
        let mut rebuilt = vec![0; table.len()];
        rebuild(n, &sheet, &mut rebuilt).unwrap();
        assert_eq!(rebuilt, table);
        assert!((0..1 << n).all(|x| run(n, &sheet, x) == Ok(bit(&table, x))));
    }
}

#[test]
fn a_written_formula_reads_as_the_table() {
    let mut fresh = Fresh(2);
    for _ in 0..50 {
        let (n, table, sheet) = sheet_for(&mut fresh, 0);
        let mut room = [0; TEXT];
        let length = write_formula(n, &sheet, &mut room).unwrap();
        let mut again = vec![0; table.len()];
        read_formula(n, &room[..length], &mut again).unwrap();
        assert_eq!(again, table);
    }
}

/// Told the first edition, each call answers as the one that isn't told.
#[test]
fn told_the_first_edition() {
    let mut fresh = Fresh(3);
    for _ in 0..50 {
        let (n, table, sheet) = sheet_for(&mut fresh, 0);
        let mut work = vec![0; WORK];
        let split = find(n, 2, &table, &mut work);
        assert_eq!(find_told(1, n, 2, &table, &mut work), split);
        let (mut made, mut h, mut h_told) = (vec![0; SHEET], table.clone(), table.clone());
        let count = make_told(1, n, 2, 0, &table, &mut made, &mut work).unwrap();
        assert_eq!(made[..count * RECORD], sheet[..]);
        if let Ok(split) = split {
            let d = try_split(n, 2, split, &table, &mut h).unwrap();
            assert_eq!(try_told(1, n, 2, split, &table, &mut h_told), Ok([d, 0, 0, 0]));
            assert_eq!(h, h_told);
        }
        let x = fresh.below(1 << n);
        assert_eq!(run_told(1, n, &sheet, x), run(n, &sheet, x));
        assert_eq!(check_told(1, n, &table, &sheet), Ok(()));
        assert_eq!(rebuild_told(1, n, &sheet, &mut h), Ok(()));
        assert_eq!(h, table);
    }
}

/// Rewritten in the second edition a sheet rebuilds the same table.
#[test]
fn rewritten_in_the_second_edition() {
    let mut fresh = Fresh(4);
    for _ in 0..50 {
        let (n, table, sheet) = sheet_for(&mut fresh, 3);
        let mut second = vec![0; SECOND_SHEET];
        let count = rewrite(n, &sheet, &mut second).unwrap();
        assert_eq!(count, sheet.len() / RECORD);
        let second = &second[..count * SECOND_RECORD];
        assert_eq!(check_told(2, n, &table, second), Ok(()));
        assert_eq!(second[9], 3);
        let mut other = table.clone();
        other[0] ^= 1;
        assert_eq!(check_told(2, n, &other, second), Err(Refusal::Differs { assignment: 0 }));
        assert_eq!(run_told(2, n, second, 1 << n), Err(Refusal::Assignment));
    }
}

/// With one first cell several are the plain split, in D, in H and in what breaks.
#[test]
fn one_of_several_first_cells() {
    let mut fresh = Fresh(5);
    for _ in 0..200 {
        let (n, table) = fresh.gate();
        let split = Split { own: fresh.below(1 << n), shared: fresh.below(1 << n) };
        let several = Several { r: 1, split };
        let (mut h, mut h_several) = (vec![1; table.len()], vec![1; table.len()]);
        let one = try_split(n, 5, split, &table, &mut h);
        let tables = try_several(n, 5, several, &table, &mut h_several);
        assert_eq!(tables, one.map(|d| [d, 0, 0]));
        assert_eq!(h, h_several);
    }
}

/// Stores of four loads in turns end in the card of the loads one after another; each desk answers
/// as its sheet does, and is closed until its last store.
#[test]
fn four_desks() {
    let mut fresh = Fresh(6);
    let sheets: Vec<_> = (1..=4).map(|desk| sheet_for(&mut fresh, desk)).collect();
    let (mut whole, mut mingled, mut cut) = (vec![9; CARD], vec![9; CARD], vec![9; CARD]);
    for (desk, (n, _, sheet)) in (1..).zip(&sheets) {
        assert_eq!(load(&mut whole, desk, *n, sheet), Ok(()));
        assert_eq!(load_cut(&mut cut, desk, *n, sheet, 256), Ok(()));
        assert_eq!(run_desk(&cut, desk, 0), Err(Refusal::Closed));
    }
    for store in 0..257 {
        for (desk, (n, _, sheet)) in (1..).zip(&sheets).collect::<Vec<_>>().into_iter().rev() {
            assert_eq!(load_store(&mut mingled, desk, *n, sheet, store), Ok(()));
        }
    }
    assert_eq!(whole, mingled);
    for (desk, (n, table, _)) in (1..).zip(&sheets) {
        assert!((0..1 << n).all(|x| run_desk(&whole, desk, x) == Ok(bit(table, x))));
    }
}

/// A cell after another takes the delay, and the slack is what is left.
#[test]
fn times_add_up() {
    let mut fresh = Fresh(7);
    for _ in 0..50 {
        let (n, _, sheet) = sheet_for(&mut fresh, 0);
        let (at, delay) = (fresh.below(1000) as f64 / 16.0, fresh.below(100) as f64 / 16.0);
        let settled = settle(n, &sheet, delay, &[InputTime::At(at); INPUTS]).unwrap();
        let between = settle(n, &sheet, delay, &[InputTime::Between(at, at); INPUTS]);
        assert_eq!(between, Ok(settled));
        let left = slack(n, &sheet, delay, &[InputTime::At(at); INPUTS], 16_000).unwrap();
        assert_eq!(left as f64, 16_000.0 - 16.0 * settled.latest);
        assert!(at + delay <= settled.earliest && settled.earliest <= settled.latest);
    }
}

/// Each way that is found turns the first table into the second; there is one exactly on one board.
#[test]
fn every_turn_turns() {
    for first in 0..=255u8 {
        for second in [0x01, 0x17, 0x69, 0x80, 0xCA, 0xE8, 0x3C] {
            let found = turn(first, second);
            assert_eq!(found.is_ok(), look_up(first) == look_up(second));
            let Turn { flip, mask, order } = match found {
                Ok(way) => way,
                Err(refusal) => {
                    assert_eq!(refusal, Refusal::NoTurn);
                    continue;
                }
            };
            for x in 0..8u8 {
                let line = |j: usize| (x >> order[j] & 1 ^ mask >> j & 1) << j;
                let y = line(0) | line(1) | line(2);
                assert_eq!(second >> x & 1 == 1, (first >> y & 1 == 1) != flip);
            }
        }
    }
}

/// The shorter of two is the one with fewer records, the first on a tie, where it lies.
#[test]
fn the_shorter_sheet() {
    let mut fresh = Fresh(8);
    for _ in 0..30 {
        let (n, table, long) = sheet_for(&mut fresh, 0);
        let mut short = vec![0; SHEET];
        let count = make_any(n, 6, 0, &table, &mut short, &mut [0; WORK]).unwrap();
        short.truncate(count * RECORD);
        let kept = shorter(n, &table, &long, &short).unwrap();
        let wanted =
            if short.len() < long.len() { Kept::Second(&short) } else { Kept::First(&long) };
        assert_eq!(kept, wanted);
        let mut other = table.clone();
        other[0] ^= 2;
        let refusal = Refusal::Differs { assignment: 1 };
        assert_eq!(shorter(n, &other, &long, &short), Err(refusal));
    }
}
