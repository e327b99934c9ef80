//! Cards from outside: loads that are cut, stores of four desks that mingle,
//! bytes that are damaged. The card is handed on from answer to answer, and what
//! the desks must then say follows from the sheets alone.

use super::arguments::Arguments;
use super::asking::{ask, next_answer, nothing_left};
use crate::batch::case_bytes;
use crate::calls::{cut_load, load, one_store, run_desk};
use crate::card::{put, start_of, stores, Store, CARD_BYTES, COUNT_AT, DESKS, DESK_BYTES, STORES};
use crate::case::{answer, Case, PRESET};
use crate::cell::{read_sheet, Cell, RECORD_BYTES, SHEET_BYTES};
use crate::describe::{answer_text, case_text};
use crate::fresh::cards::{any_card, any_sheet, other_byte};
use crate::network::run;
use crate::random::Random;
use crate::refusals::{CLOSED, DONE, NO_ASSIGNMENT};

/// A case, the answer that is promised, and what it is about.
pub struct Step {
    pub case: Case,
    pub expected: Vec<u8>,
    pub what: &'static str,
}

/// A sheet as it was loaded.
#[derive(Clone)]
struct Loaded {
    n: usize,
    sheet: Vec<u8>,
    cells: Vec<Cell>,
}

/// A card, and for each desk the sheet as which it answers; closed, if none.
#[derive(Clone)]
struct State {
    card: Vec<u8>,
    desks: Vec<Option<Loaded>>,
}

pub fn cards(arguments: &Arguments) -> Result<(), String> {
    let wanted = arguments.wanted_command()?;
    let seed = arguments.seed()?;
    let rounds = arguments.number("--cases", 4)?;
    println!("cards: seed {seed}, {rounds} rounds");
    let mut random = Random::new(seed);
    for _ in 0..rounds {
        for steps in [cut(&mut random), mingled(&mut random)?, damaged(&mut random)] {
            judge(wanted, &steps)?;
        }
    }
    println!("every card is as its stores make it, and every desk answers as its sheet");
    Ok(())
}

fn judge(wanted: &[String], steps: &[Step]) -> Result<(), String> {
    let batch: Vec<u8> = steps.iter().flat_map(|step| case_bytes(&step.case)).collect();
    let output = ask(wanted, &batch)?;
    let mut left = &output[..];
    for Step { case, expected, what } in steps {
        let got = next_answer(case, &mut left)?;
        if got != expected {
            let (expected, got) = (answer_text(case, expected), answer_text(case, got));
            let case = case_text(case);
            return Err(format!("{what}: {case}\n  expected: {expected}\n  got:      {got}"));
        }
    }
    nothing_left(left)?;
    let what = steps.last().map_or("nothing", |step| step.what);
    println!("{what}: {} cases passed", steps.len());
    Ok(())
}

/// Every part in turn, for a test of our own.
pub fn steps(random: &mut Random) -> Result<Vec<Step>, String> {
    Ok([cut(random), mingled(random)?, damaged(random)].into_iter().flatten().collect())
}

fn drawn(random: &mut Random, desk: usize) -> Loaded {
    let (n, sheet) = any_sheet(random, desk);
    let cells = read_sheet(n, &sheet).expect("a sound sheet");
    Loaded { n, sheet, cells }
}

impl Loaded {
    fn stores(&self, desk: usize) -> Vec<Store> {
        stores(desk, self.n, &self.sheet)
    }
}

/// Number 0, index 0 and the card afterwards.
fn done(card: &[u8]) -> Vec<u8> {
    [&[DONE, 0], card].concat()
}

impl State {
    /// Any card, its desks loaded one after the other.
    fn loaded(random: &mut Random, list: &mut Vec<Step>, what: &'static str) -> State {
        let card = any_card(random);
        let mut state = State { card, desks: vec![None; DESKS] };
        let mut order: Vec<usize> = (1..=DESKS).collect();
        random.shuffle(&mut order);
        for desk in order {
            let sheet = drawn(random, desk);
            state.load(desk, sheet, list, what);
        }
        state
    }

    fn load(&mut self, desk: usize, new: Loaded, list: &mut Vec<Step>, what: &'static str) {
        let before = self.card.clone();
        put(&mut self.card, &new.stores(desk));
        let case = load::case(desk as u64, new.n as u64, new.sheet.clone(), before);
        list.push(Step { case, expected: done(&self.card), what });
        self.desks[desk - 1] = Some(new);
    }

    /// What a desk must say at an assignment.
    fn said(&self, desk: usize, x: usize) -> Vec<u8> {
        match &self.desks[desk - 1] {
            None => vec![CLOSED, 0, 0],
            Some(loaded) if x >> loaded.n != 0 => vec![NO_ASSIGNMENT, 0, 0],
            Some(loaded) => vec![DONE, u8::from(run(loaded.n, &loaded.cells, x)), 0],
        }
    }

    /// Runs every desk at some assignments, one of them too large for it.
    fn run_all(&self, random: &mut Random, list: &mut Vec<Step>, what: &'static str) {
        for desk in 1..=DESKS {
            let n = self.desks[desk - 1].as_ref().map_or(4, |loaded| loaded.n);
            for x in [0, random.below(1 << n), (1 << n) - 1, 1 << n] {
                let case = run_desk::case(desk as u64, x as u64, self.card.clone());
                list.push(Step { case, expected: self.said(desk, x), what });
            }
        }
    }
}

/// A load cut after each of its stores: as before the load if none was made,
/// closed until the last, then as the new sheet; the other desks as they were.
fn cut(random: &mut Random) -> Vec<Step> {
    let what = "a load that is cut";
    let mut list = Vec::new();
    let before = State::loaded(random, &mut list, what);
    let desk = random.between(1, DESKS);
    let new = drawn(random, desk);
    let stores = new.stores(desk);
    for made in 0..=STORES + 1 {
        let mut state = before.clone();
        put(&mut state.card, &stores[..made.min(STORES)]);
        match made {
            0 => {}
            made if made < STORES => state.desks[desk - 1] = None,
            _ => state.desks[desk - 1] = Some(new.clone()),
        }
        let (sheet, card) = (new.sheet.clone(), before.card.clone());
        let case = cut_load::case(made as u64, desk as u64, new.n as u64, sheet, card);
        list.push(Step { case, expected: done(&state.card), what });
        state.run_all(random, &mut list, what);
    }
    list
}

/// Up to three loads a desk, one store at a time, the desks mingled at random,
/// in every other round stopped anywhere. If all came to their end the card is
/// that of the loads one after the other.
fn mingled(random: &mut Random) -> Result<Vec<Step>, String> {
    let what = "stores that mingle";
    let mut list = Vec::new();
    let start = State::loaded(random, &mut list, what);
    let loads: Vec<Vec<Loaded>> = (1..=DESKS)
        .map(|desk| (0..random.between(1, 3)).map(|_| drawn(random, desk)).collect())
        .collect();
    let all: usize = loads.iter().map(|own| own.len() * STORES).sum();
    let stop = if random.coin() { random.below(all) } else { all };
    let mut made = vec![0; DESKS];
    let mut state = start.clone();
    let (mut at, mut burst) = (0, 0);
    for step in 0..stop {
        // A desk goes on for a while, or every store is another desk's.
        while burst == 0 || made[at] == loads[at].len() * STORES {
            at = random.below(DESKS);
            burst = if random.coin() { 1 } else { random.between(1, 40) };
        }
        burst -= 1;
        let own = &loads[at][made[at] / STORES];
        let (desk, which) = (at + 1, made[at] % STORES);
        let before = state.card.clone();
        put(&mut state.card, &own.stores(desk)[which..=which]);
        let (n, sheet) = (own.n as u64, own.sheet.clone());
        let case = one_store::case(which as u64, desk as u64, n, sheet, before);
        list.push(Step { case, expected: done(&state.card), what });
        made[at] += 1;
        state.desks[at] = (which + 1 == STORES).then(|| own.clone());
        if step % 40 == 0 || step + 1 == stop {
            state.run_all(random, &mut list, what);
        }
    }
    if stop == all {
        let card = one_after_another(random, start, loads, &mut list);
        if card != state.card {
            return Err("the second program itself: mingled stores end in another card".into());
        }
    }
    Ok(list)
}

/// The same loads, each whole, the desks in any order, a desk's own in theirs.
fn one_after_another(
    random: &mut Random,
    mut state: State,
    loads: Vec<Vec<Loaded>>,
    list: &mut Vec<Step>,
) -> Vec<u8> {
    let mut left: Vec<_> = loads.into_iter().map(Vec::into_iter).collect();
    while left.iter().any(|own| own.len() > 0) {
        let at = random.below(DESKS);
        if let Some(new) = left[at].next() {
            state.load(at + 1, new, list, "loads one after another");
        }
    }
    state.card
}

/// Every byte of a card damaged in turn: the other desks answer as they did, its
/// own too where the byte isn't looked at.
fn damaged(random: &mut Random) -> Vec<Step> {
    let what = "a damaged byte";
    let mut list = Vec::new();
    let sound = State::loaded(random, &mut list, what);
    for place in 0..CARD_BYTES {
        let mut state = sound.clone();
        state.card[place] = other_byte(random, state.card[place]);
        let own = place / DESK_BYTES + 1;
        for desk in 1..=DESKS {
            let loaded = sound.desks[desk - 1].as_ref().expect("a desk that answers");
            let x = random.below(1 << loaded.n);
            let case = run_desk::case(desk as u64, x as u64, state.card.clone());
            let expected = match desk == own && is_looked_at(place - start_of(own), loaded) {
                true => answer(&case, PRESET).numbers.into_iter().map(|part| part as u8).collect(),
                false => sound.said(desk, x),
            };
            list.push(Step { case, expected, what });
        }
    }
    list
}

/// Whether running looks at this byte of a desk: its records, mark, n and count.
fn is_looked_at(place: usize, loaded: &Loaded) -> bool {
    let used = loaded.cells.len() * RECORD_BYTES;
    place < used || (SHEET_BYTES..=COUNT_AT).contains(&place)
}
