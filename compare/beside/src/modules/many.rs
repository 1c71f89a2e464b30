//! Many parameters and all spans of a curve with one validation: each row beside the Rust's single call.
mod bench;

use super::answered::{Wanted, room};
use super::bounds::calls as bounds;
use super::evaluate::calls as evaluate;
use super::{Desk, Module, joined};
use crate::face::*;
use crate::lent::Match;
use crate::tables::at;
use crate::tables::domain::{self, AROUND, Mode, around};
use crate::tables::make::{self, Care};
use crate::tables::{Curve, FEATURES, LIMIT, Refused};
use crate::tally::{Call, Place};
use evaluate::Order;

const CARE: Care = Care { steep: [300, 300, 200, 100, 10, 10], broken: 8, long: 8000 };

const WHOLE: &[u32] = &[0, 1, 2, 3, 4, 5, 6, 7, 8, 9, 10, 30, 31, 32];

/// Each call, and below it the items of its rows.
const CALLS: [(&str, &[u32], &[u32]); 12] = [
    ("eval_many", WHOLE, &[]),
    ("  each", &[0, 12, 43], &[]),
    ("eval_many_clamped", WHOLE, &[]),
    ("  each", &[0, 12], &[]),
    ("eval2_many", WHOLE, &[]),
    ("  each", &[0, 12, 21, 43], &[]),
    ("eval2_many_clamped", WHOLE, &[]),
    ("  each", &[0, 12, 21], &[]),
    ("bound_spans", WHOLE, &[28, 29]),
    ("  each", &[0, 26, 27], &[28, 29]),
    ("bound_points", WHOLE, &[28, 29]),
    ("  each", &[0, 26, 27], &[28, 29]),
];

// The last is of surfaces alone.
const COMMON: usize = FEATURES.len() - 1;
/// In the order of the calls.
const PARAMETERS: [&str; 4 * AROUND] = around! { "eval_many" "eval_many_clamped" "eval2_many" "eval2_many_clamped" };
const SEEN: [&str; COMMON + PARAMETERS.len()] = joined(FEATURES.split_at(COMMON).0, &PARAMETERS);

pub const MODULE: Module = Module {
    name: "many",
    calls: || CALLS.map(|c| Call { name: c.0, numbers: c.1, idle: c.2 }).into(),
    features: &SEEN,
    exact: &[],
    default_cases: 200_000,
    case,
    list: None,
    bench: bench::table,
};

/// An item's row: whole numbers that go before the refusal, the refusal or 0, and the doubles; and where the item's
/// parameter is, if it has one.
struct Item {
    before: Vec<u32>,
    number: u32,
    words: Vec<u64>,
    spots: [bool; AROUND],
}

fn item(before: Vec<u32>, width: usize, spots: [bool; AROUND], want: Wanted) -> Item {
    let number = want.number();
    let words = match want {
        Wanted::Runs(mut runs) => runs.remove(0),
        _ => vec![0; width],
    };
    Item { before, number, words, spots }
}

/// The refusal of the whole call, but for the rooms.
fn whole(table: &Curve) -> Refused {
    match table.rust() {
        Err(r) => r,
        Ok(_) => Refused::unplaced(if table.is_steep() { 31 } else { 0 }),
    }
}

const MARK: u32 = 0xc0ff_ee11;

/// Lends both runs, and holds what is left in them and what is returned against the items.
fn compared(
    desk: &mut Desk,
    row: usize,
    width: usize,
    refusal: Refused,
    items: &[Item],
    ours: impl FnOnce(&mut [u32], &mut [f64]) -> (Refused, usize),
    literal: impl FnOnce() -> String,
) -> Option<String> {
    let Desk { r, lent, tally } = desk;
    let each = items.first().map_or(1, |i| i.before.len() + 1);
    let rooms = [room(r, items.len() * each), room(r, items.len() * width)];
    let short = rooms[0] < items.len() * each || rooms[1] < items.len() * width;
    let (want, items) = match refusal.number {
        0 if short => (Refused::unplaced(30), &[][..]),
        0 => (refusal, items),
        _ => (refusal, &[][..]),
    };
    let mut marks = vec![MARK; rooms[0] + 2];
    let (got, count) = ours(&mut marks[1..=rooms[0]], lent[0].lend(r, rooms[1]));
    let mut left: Vec<u32> = items.iter().flat_map(|i| i.before.iter().copied().chain([i.number])).collect();
    left.resize(rooms[0], 0);
    let words: Vec<u64> = items.iter().flat_map(|i| i.words.iter().copied()).collect();
    let kept = marks[0] == MARK && marks[rooms[0] + 1] == MARK;
    let same = kept && marks[1..=rooms[0]] == left && lent[0].holds(&words, false) == Match::Same;
    let agrees = same && got == want && count == items.len();
    for i in items {
        tally.judged(row + 1, i.number, agrees, String::new);
        if row < 8 {
            domain::met(i.spots, &mut tally.features[COMMON + AROUND * (row / 2)..]);
        }
    }
    tally.judged(row, want.number, agrees, || {
        format!(
            "{}\n  Rust literal:  {}\n  lent:          {rooms:?} numbers\n  wanted:        {want:?} {left:x?} {words:x?}\n  ours:          {got:?} {:x?} {:x?}",
            CALLS[row].0,
            literal(),
            &marks[1..=rooms[0]],
            lent[0].words()
        )
    })
}

/// A call of many parameters.
type Points = fn(&Curve, &[f64], &mut [u32], &mut [f64]) -> u64;

fn points(desk: &mut Desk, order: Order, mode: Mode) -> Option<String> {
    let (row, width, call): (_, _, Points) = match (order, mode) {
        (Order::Two, Mode::Refusing) => (4, 9, tasulogi_eval2_many),
        (Order::Two, Mode::Clamping) => (6, 9, tasulogi_eval2_many_clamped),
        (_, Mode::Refusing) => (0, 6, tasulogi_eval_many),
        (_, Mode::Clamping) => (2, 6, tasulogi_eval_many_clamped),
    };
    let table = made(desk);
    let n = if desk.r.below(20_000) == 0 { LIMIT + 1 } else { desk.r.below(9) as usize };
    let mut parameter = || at::of_domain(&mut desk.r, table.degree, table.count(), &table.knots);
    let ts: Vec<f64> = (0..n).map(|i| if i < 9 { parameter() } else { 0.0 }).collect();
    desk.tally.count(ts.iter().take(9));
    let refusal = if n > LIMIT { Refused::unplaced(30) } else { whole(&table) };
    let mut case = evaluate::CurveCase { table, t: 0.0 };
    let mut each = |t: f64| {
        case.t = t;
        item(vec![], width, case.table.domain().spots(t), case.rust_point(order, mode))
    };
    let items: Vec<Item> = if refusal.number == 0 { ts.iter().map(|t| each(*t)).collect() } else { vec![] };
    let table = &case.table;
    let ours = |numbers: &mut [u32], rows: &mut [f64]| {
        let n = call(table, &ts, numbers, rows);
        (Refused::of_word(n), if n == 0 { ts.len() } else { 0 })
    };
    compared(desk, row, width, refusal, &items, ours, || format!("{}, at {ts:?}", table.literal()))
}

/// A call of all spans.
type Boxes = fn(&Curve, &mut [u32], &mut [f64]) -> u64;

/// The whole boxes, or the point of each alone.
fn spans(desk: &mut Desk, alone: bool) -> Option<String> {
    let (row, width, call): (_, _, Boxes) =
        if alone { (10, bounds::POINT, tasulogi_bound_points) } else { (8, bounds::BOX, tasulogi_bound_spans) };
    let table = made(desk);
    let refusal = whole(&table);
    let spans = if refusal.number == 0 { table.degree..table.count() } else { 0..0 };
    let mut case = bounds::CurveCase { table, range: (0.0, 0.0) };
    let each = |s: usize| {
        case.range = (case.table.knots[s], case.table.knots[s + 1]);
        let want = || if alone { bounds::point_of(&case.rust()) } else { case.rust() };
        (case.range.0 < case.range.1).then(|| item(vec![s as u32], width, [false; AROUND], want()))
    };
    let items: Vec<Item> = spans.filter_map(each).collect();
    let table = &case.table;
    let ours = |marks: &mut [u32], boxes: &mut [f64]| {
        // The low half is the count, or the place of a refusal.
        let word = call(table, marks, boxes);
        match word >> 32 {
            0 => (Refused::default(), word as usize),
            _ => (Refused::of_word(word.rotate_left(32)), 0),
        }
    };
    compared(desk, row, width, refusal, &items, ours, || table.literal())
}

fn made(desk: &mut Desk) -> Curve {
    let table = make::curve(&mut desk.r, &CARE);
    table.features(&mut desk.tally.features);
    desk.tally.count(table.doubles().take(400));
    table
}

fn case(_: Place, desk: &mut Desk) -> Option<String> {
    let mode = Mode::either(&mut desk.r);
    match desk.r.below(4) {
        0 => points(desk, Order::One, mode),
        1 => points(desk, Order::Two, mode),
        _ => {
            let text = spans(desk, false);
            if text.is_some() || desk.r.below(2) != 0 { text } else { spans(desk, true) }
        }
    }
}
