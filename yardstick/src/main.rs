//! The yardstick: the search of the bench in ordinary safe Rust, quick and plain, timed beside the proved one, each
//! inside this process. Every answer of the three is compared.
//!
//! ```text
//! yardstick            the stored tables: ours against the two
//! yardstick grow [S [K]]  how each kind grows with n, as lines 'kind,k,n,tables,ours,quick,plain' in nanoseconds a
//!                      table, for cells of K inputs or of 2 to 6; plain is left out (0) where it would take more than
//!                      S seconds a kind (20)
//! yardstick store      makes the stored tables anew, from a fixed seed
//! yardstick plot FILE  a drawing of such lines
//! ```
mod library;
mod plot;

use std::time::Instant;
use yardstick::kinds::{self, Random};
use yardstick::{plain, quick, table};

const RANDOM: &[u8] = include_bytes!("../tables/random.bin");
const NEAR: &[u8] = include_bytes!("../tables/near.bin");
/// The stored tables have 12 inputs; cells have 6.
const N: u32 = 12;
const K: u32 = 6;
const STORED: usize = 100;
const WORK: usize = 16384;

type Answer = Option<(u16, u16)>;

/// One search, by its name in the output.
#[derive(Clone, Copy)]
enum Search {
    Ours,
    Quick,
    Plain,
}

impl Search {
    /// Never inlined, so that each call of a round is made.
    #[inline(never)]
    fn find(self, t: &[u8], n: u32, k: u32, work: &mut [u8]) -> Answer {
        match self {
            Search::Ours => library::find(t, n, k, work),
            Search::Quick => table::over_counting(t, n, k, work, quick::find),
            Search::Plain => table::over_counting(t, n, k, work, plain::find),
        }
    }

    /// The least time of some rounds, each of as many calls as fill about 20 µs, and the answer.
    fn timed(self, t: &[u8], n: u32, k: u32, rounds: u32) -> (f64, Answer) {
        let mut work = vec![0u8; WORK];
        let began = Instant::now();
        let answer = self.find(t, n, k, &mut work);
        let once = began.elapsed().as_nanos().max(1) as f64;
        if rounds <= 1 {
            return (once, answer);
        }
        let calls = (20_000.0 / once).ceil() as u32;
        let mut least = once;
        for _ in 0..rounds {
            let began = Instant::now();
            for _ in 0..calls {
                assert_eq!(self.find(t, n, k, &mut work), answer);
            }
            least = least.min(began.elapsed().as_nanos() as f64 / calls as f64);
        }
        (least, answer)
    }
}

/// The sum of a search's times over tables; each answer is held against the given ones.
fn total(
    search: Search,
    tables: &[Vec<u8>],
    n: u32,
    k: u32,
    rounds: u32,
    answers: &mut Vec<Answer>,
) -> f64 {
    let mut sum = 0.0;
    for (i, t) in tables.iter().enumerate() {
        let (time, answer) = search.timed(t, n, k, rounds);
        sum += time;
        match answers.get(i) {
            None => answers.push(answer),
            Some(known) => assert_eq!(
                *known, answer,
                "table {i} of {n} inputs, K = {k}: two searches disagree"
            ),
        }
    }
    sum
}

fn stored() {
    for (name, bytes) in [("random", RANDOM), ("near misses", NEAR)] {
        let tables: Vec<Vec<u8>> = bytes.chunks(table::length(N)).map(|t| t.to_vec()).collect();
        assert_eq!(tables.len(), STORED);
        let mut answers = Vec::new();
        let [ours, quick, plain] = [(Search::Ours, 9), (Search::Quick, 9), (Search::Plain, 2)]
            .map(|(search, rounds)| total(search, &tables, N, K, rounds, &mut answers));
        assert!(answers.iter().all(Option::is_none), "a stored table has a split");
        let each = 1000.0 * STORED as f64;
        println!(
            "{name}, n = {N}, K = {K}, {STORED} stored: ours {:.1} us a table, quick in Rust {:.1}, \
             plain in Rust {:.1}",
            ours / each,
            quick / each,
            plain / each
        );
        println!(
            "{name}: ours takes {:.2} times the quick search in Rust; {:.0} times quicker than the plain one",
            ours / quick,
            plain / ours
        );
    }
}

type Kind = fn(u32, u32, &mut Random) -> Vec<u8>;

fn grow(most: f64, cells: std::ops::RangeInclusive<u32>) {
    let kinds: [(&str, Kind, usize); 5] = [
        ("random", kinds::random, 20),
        ("near misses", kinds::near_miss, 20),
        ("XOR, last row flipped", kinds::xor_flipped, 1),
        ("XOR, some row flipped", kinds::xor_any_flipped, 5),
        ("few ones", kinds::sparse, 20),
    ];
    for (name, kind, count) in kinds {
        for k in cells.clone() {
            let mut before = 0.0;
            for n in [8, 10, 12, 14, 16] {
                let tables = without_split(kind, n, k, count);
                before = line(name, &tables, n, k, before, most);
            }
        }
    }
    for (name, kind) in [("AND", kinds::all_and as Kind), ("XOR", kinds::all_xor)] {
        let tables = vec![kind(16, K, &mut Random(1))];
        line(name, &tables, 16, K, 0.0, most);
    }
}

/// One line of figures; how many seconds the plain search took, or would.
fn line(name: &str, tables: &[Vec<u8>], n: u32, k: u32, before: f64, most: f64) -> f64 {
    let mut answers = Vec::new();
    let ours = total(Search::Ours, tables, n, k, 5, &mut answers);
    let quick = total(Search::Quick, tables, n, k, 5, &mut answers);
    // From one n to the next but one the plain search takes up to 14 times as long.
    let mut plain = 0.0;
    let mut seconds = 14.0 * before;
    if seconds <= most {
        plain = total(Search::Plain, tables, n, k, 1, &mut answers);
        seconds = plain / 1e9;
    }
    let each = tables.len() as f64;
    println!(
        "{name},{k},{n},{},{:.0},{:.0},{:.0}",
        tables.len(),
        ours / each,
        quick / each,
        plain / each
    );
    seconds
}

fn without_split(kind: Kind, n: u32, k: u32, count: usize) -> Vec<Vec<u8>> {
    let mut random = Random(u64::from(n) << 32 | u64::from(k));
    let mut tables = Vec::new();
    while tables.len() < count {
        let t = kind(n, k, &mut random);
        if table::support(&t, n).count_ones() > k && quick::find(&t, n, k).is_none() {
            tables.push(t);
        }
    }
    tables
}

fn store() -> std::io::Result<()> {
    for (file, kind) in [("random", kinds::random as Kind), ("near", kinds::near_miss)] {
        let tables = without_split(kind, N, K, STORED);
        std::fs::write(format!("yardstick/tables/{file}.bin"), tables.concat())?;
    }
    Ok(())
}

fn main() -> std::io::Result<()> {
    let words: Vec<String> = std::env::args().skip(1).collect();
    match words.iter().map(String::as_str).collect::<Vec<_>>()[..] {
        [] => stored(),
        ["grow"] => grow(20.0, 2..=K),
        ["grow", most] => grow(most.parse().expect("seconds"), 2..=K),
        ["grow", most, k] => {
            let k = k.parse().expect("K");
            grow(most.parse().expect("seconds"), k..=k)
        }
        ["store"] => store()?,
        ["plot", file] => print!("{}", plot::drawing(&std::fs::read_to_string(file)?)),
        _ => {
            eprintln!("usage: yardstick [grow [SECONDS [K]] | store | plot FILE]");
            std::process::exit(64);
        }
    }
    Ok(())
}
