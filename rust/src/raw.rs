//! The calls as include/pelzurivan.h has them for C: the answers' structs and the functions.

#[repr(C)]
pub struct Tried {
    pub number: u64,
    pub d: u64,
    pub b: u64,
    pub columns: u64,
}

#[repr(C)]
pub struct TriedSeveral {
    pub number: u64,
    pub first: u64,
    pub second: u64,
    pub third: u64,
    pub b: u64,
    pub columns: u64,
}

#[repr(C)]
pub struct Sought {
    pub number: u64,
    pub own: u64,
    pub shared: u64,
}

#[repr(C)]
pub struct SoughtSeveral {
    pub number: u64,
    pub r: u64,
    pub own: u64,
    pub shared: u64,
}

#[repr(C)]
pub struct Made {
    pub number: u64,
    pub count: u64,
}

#[repr(C)]
pub struct Ran {
    pub number: u64,
    pub bit: u64,
    pub index: u64,
}

/// A number and what it names: of rebuild, check, the reader of formulas and the loads.
#[repr(C)]
pub struct Placed {
    pub number: u64,
    pub place: u64,
}

#[repr(C)]
pub struct Written {
    pub number: u64,
    pub place: u64,
    pub length: u64,
}

#[repr(C)]
#[derive(Clone, Copy)]
pub struct Times {
    pub kind: [u8; 16],
    pub first: [f64; 16],
    pub second: [f64; 16],
}

#[repr(C)]
pub struct Settled {
    pub number: u64,
    pub index: u64,
    pub earliest: f64,
    pub latest: f64,
}

#[repr(C)]
pub struct Slack {
    pub number: u64,
    pub index: u64,
    pub slack: i64,
}

#[repr(C)]
pub struct Shorter {
    pub which: u64,
    pub length: u64,
    pub number: u64,
}

#[repr(C)]
pub struct Turned {
    pub number: u64,
    pub flip: u64,
    pub mask: u64,
    pub p0: u64,
    pub p1: u64,
    pub p2: u64,
}

pub type In = *const u8;
pub type Out = *mut u8;

extern "C" {
    pub fn pelzurivan_try(
        n: u64,
        k: u64,
        own: u64,
        shared: u64,
        table: In,
        table_length: usize,
        room: Out,
        room_length: usize,
    ) -> Tried;
    pub fn pelzurivan_try_several(
        n: u64,
        k: u64,
        r: u64,
        own: u64,
        shared: u64,
        table: In,
        table_length: usize,
        room: Out,
        room_length: usize,
    ) -> TriedSeveral;
    pub fn pelzurivan_find(
        n: u64,
        k: u64,
        table: In,
        table_length: usize,
        work: Out,
        work_length: usize,
    ) -> Sought;
    pub fn pelzurivan_find_several(
        n: u64,
        k: u64,
        table: In,
        table_length: usize,
        work: Out,
        work_length: usize,
    ) -> SoughtSeveral;
    pub fn pelzurivan_make(
        n: u64,
        k: u64,
        table: In,
        table_length: usize,
        sheet: Out,
        sheet_length: usize,
        work: Out,
        work_length: usize,
    ) -> Made;
    pub fn pelzurivan_make_for_desk(
        n: u64,
        k: u64,
        desk: u64,
        table: In,
        table_length: usize,
        sheet: Out,
        sheet_length: usize,
        work: Out,
        work_length: usize,
    ) -> Made;
    pub fn pelzurivan_run(n: u64, sheet: In, sheet_length: usize, x: u64) -> Ran;
    pub fn pelzurivan_rebuild(
        n: u64,
        sheet: In,
        sheet_length: usize,
        table: Out,
        table_length: usize,
    ) -> Placed;
    pub fn pelzurivan_check(
        n: u64,
        table: In,
        table_length: usize,
        sheet: In,
        sheet_length: usize,
    ) -> Placed;
    pub fn pelzurivan_shorter(
        n: u64,
        table: In,
        table_length: usize,
        first: In,
        first_length: usize,
        second: In,
        second_length: usize,
    ) -> Shorter;
    pub fn pelzurivan_settle(
        n: u64,
        sheet: In,
        sheet_length: usize,
        delay: f64,
        times: Times,
    ) -> Settled;
    pub fn pelzurivan_slack(
        n: u64,
        sheet: In,
        sheet_length: usize,
        delay: f64,
        times: Times,
        deadline: i64,
    ) -> Slack;
    pub fn pelzurivan_read_formula(
        n: u64,
        text: In,
        text_length: usize,
        table: Out,
        table_length: usize,
    ) -> Placed;
    pub fn pelzurivan_write_formula(
        n: u64,
        sheet: In,
        sheet_length: usize,
        room: Out,
        room_length: usize,
    ) -> Written;
    pub fn pelzurivan_load(
        card: Out,
        card_length: usize,
        desk: u64,
        n: u64,
        sheet: In,
        sheet_length: usize,
    ) -> Placed;
    pub fn pelzurivan_load_cut(
        card: Out,
        card_length: usize,
        desk: u64,
        n: u64,
        sheet: In,
        sheet_length: usize,
        stores: u64,
    ) -> Placed;
    pub fn pelzurivan_load_store(
        card: Out,
        card_length: usize,
        desk: u64,
        n: u64,
        sheet: In,
        sheet_length: usize,
        which: u64,
    ) -> Placed;
    pub fn pelzurivan_run_desk(card: In, card_length: usize, desk: u64, x: u64) -> Ran;
    pub fn pelzurivan_turn(first: u8, second: u8) -> Turned;
    pub fn pelzurivan_look_up(table: u8) -> u8;
}
