//! The cost report of W-202 on the model: reports worked out by hand from the
//! documents, those of the library's test program `report_cases` line by line,
//! and what holds of every report over states reached from a start.

use endrusp::generate::{self, Random};
use endrusp::model::{
    self, Answer, CELLS, Call, Cell, Charge, ENTRIES, Entry, Ex, MOST_CHARGES, Message, Outcome,
    Refusal, Report, State, Value, WORKERS,
};
use std::fmt::Write;

fn started(p: u8) -> State {
    let mut state = State::closed();
    assert_eq!(state.call(Call::Start { p }), done(0));
    state
}

fn done(value: u32) -> Outcome {
    Ok(Answer::Done(value))
}

/// A call that is done, and its value, a cell or slot.
fn value(state: &mut State, call: Call) -> u8 {
    match state.call(call) {
        Ok(Answer::Done(value) | Answer::Sent(value)) => value as u8,
        other => panic!("{call} answered {other:?}"),
    }
}

/// A call that sends and the delivery of what it sent.
fn sent_and_delivered(state: &mut State, call: Call) -> u8 {
    let s = value(state, call);
    value(state, Call::Deliver { s })
}

/// A read of an EX, the delivery of the Read and that of the Answer.
fn read_and_answered(state: &mut State, w: u8, c: u8) {
    let s = value(state, Call::Read { w, c });
    assert_eq!(state.call(Call::Deliver { s }), done(0));
    assert_eq!(state.call(Call::Deliver { s }), done(u32::from(c)));
}

fn ex(state: &State, w: u8, c: u8) -> Ex {
    match state.cell(w, c) {
        Cell::Ex(ex) => ex,
        other => panic!("cell {c} of worker {w} is {other:?}"),
    }
}

fn charge(worker: u8, cell: u8, amount: i32) -> Charge {
    Charge { worker, cell, amount }
}

/// The report that is done, with these callers' totals and no others.
fn reported(totals: &[(u8, i64)], unplaced: i64, placed: u32, missed: u32) -> Report {
    let mut report = Report { outcome: done(0), totals: [0; 256], unplaced, placed, missed };
    for (caller, total) in totals {
        report.totals[usize::from(*caller)] = *total;
    }
    report
}

/// The report that is refused: "both leave all totals and both numbers of
/// charges 0."
fn refused(refusal: Refusal) -> Report {
    Report { outcome: Err(refusal), totals: [0; 256], unplaced: 0, placed: 0, missed: 0 }
}

/// How many entries are live.
fn live_entries(state: &State) -> usize {
    state.entries.as_flattened().iter().flatten().count()
}

/// VAR 0 of worker 0, of caller 7, exported to worker 1 and delivered as its
/// cell 0; VAR 1 of worker 1, of caller 9.
fn two_callers() -> State {
    let mut state = started(2);
    assert_eq!(value(&mut state, Call::New { w: 0, caller: 7 }), 0);
    assert_eq!(sent_and_delivered(&mut state, Call::Export { w: 0, c: 0, to: 1 }), 0);
    assert_eq!(value(&mut state, Call::New { w: 1, caller: 9 }), 1);
    state
}

/// A loop made by hand: cell 0 of worker 0 is an EX of entry 0 of worker 1, and
/// the other way round. Point 3 wants both entries tainted: the EX of worker 0
/// has an owner above it, and that of worker 1 names an entry that is tainted.
fn looped() -> State {
    let mut state = started(2);
    for (w, owner) in [(0, 1), (1, 0)] {
        let ex = Ex { owner, entry: 0, weight: 1, value: Value::Idle, asking: false };
        state.cells[w][0] = Cell::Ex(ex);
        state.entries[w][0] = Some(Entry { cell: 0, weight: 1, tainted: true });
    }
    state
}

// ------------------------------------------------------------ amounts, totals

#[test]
fn three_charges() {
    let charges = [charge(0, 0, 250), charge(1, 0, 40), charge(1, 1, -15)];
    let expected = reported(&[(7, 290), (9, -15)], 0, 3, 0);
    assert_eq!(two_callers().report(&charges), expected);
}

/// "An empty list gives zeros."
#[test]
fn an_empty_list_gives_zeros() {
    let zeros = reported(&[], 0, 0, 0);
    for state in [State::closed(), started(1), started(8), two_callers(), looped()] {
        assert_eq!(state.report(&[]), zeros);
    }
}

/// "signed 32-bit amount", at zero and at both ends of the range.
#[test]
fn amounts_at_the_ends_of_the_range() {
    let ends = [
        (0, 0),
        (1, 1),
        (-1, -1),
        (-2_147_483_648, -2_147_483_648_i64),
        (2_147_483_647, 2_147_483_647),
    ];
    for caller in [0, 1, 127, 128, 255] {
        let mut state = started(1);
        value(&mut state, Call::New { w: 0, caller: u32::from(caller) });
        for (amount, total) in ends {
            let placed = reported(&[(caller, total)], 0, 1, 0);
            assert_eq!(state.report(&[charge(0, 0, amount)]), placed);
            let unplaced = reported(&[], total, 0, 1);
            assert_eq!(state.report(&[charge(0, 1, amount)]), unplaced);
        }
        // Beyond the range of 32 bits, on both sides.
        let lowest = [charge(0, 0, i32::MIN); 3];
        assert_eq!(state.report(&lowest), reported(&[(caller, -6_442_450_944)], 0, 3, 0));
        let highest = [charge(0, 1, i32::MAX); 3];
        assert_eq!(state.report(&highest), reported(&[], 6_442_450_941, 0, 3));
        // 0 - 1 - 2,147,483,648 + 2,147,483,647 = -2.
        let all = [0, -1, i32::MIN, i32::MAX].map(|amount| charge(0, 0, amount));
        assert_eq!(state.report(&all), reported(&[(caller, -2)], 0, 4, 0));
    }
}

/// "corrections are negative": what is taken back leaves 0 and is counted.
#[test]
fn corrections_are_counted_as_charges() {
    let charges = [
        charge(0, 0, 500),
        charge(1, 0, -500),
        charge(1, 1, 3),
        charge(1, 2, i32::MIN),
        charge(1, 1, -4),
        charge(2, 0, i32::MAX),
    ];
    assert_eq!(two_callers().report(&charges), reported(&[(7, 0), (9, -1)], -1, 4, 2));
}

/// "The report gives 256 signed 64-bit totals": 256 VARs, each of a caller of
/// its own, and every second one a VAL.
#[test]
fn every_caller_has_a_total_of_its_own() {
    let mut state = started(8);
    let mut charges = Vec::new();
    let mut totals = Vec::new();
    for caller in 0..=255_u8 {
        let (w, c) = (caller / 32, caller % 32);
        assert_eq!(value(&mut state, Call::New { w, caller: u32::from(caller) }), c);
        if caller % 2 == 1 {
            value(&mut state, Call::Set { w, c, n: u32::from(255 - caller) });
        }
        let amount = i32::from(caller) * 1_000 - 100_000;
        charges.push(charge(w, c, amount));
        totals.push((caller, i64::from(amount)));
    }
    assert_eq!(state.report(&charges), reported(&totals, 0, 256, 0));
}

/// Cells of one caller at several workers go to one total.
#[test]
fn one_caller_at_several_workers() {
    let mut state = started(3);
    for w in [0, 1, 2, 2] {
        value(&mut state, Call::New { w, caller: 255 });
    }
    value(&mut state, Call::New { w: 2, caller: 0 });
    let charges = [
        charge(0, 0, 1),
        charge(1, 0, 10),
        charge(2, 0, 100),
        charge(2, 1, 1_000),
        charge(2, 2, 10_000),
    ];
    assert_eq!(state.report(&charges), reported(&[(0, 10_000), (255, 1_111)], 0, 5, 0));
}

// ------------------------------------------------------- the length of a list

/// "At most 65,535 charges."
#[test]
fn the_longest_list() {
    let state = two_callers();
    assert_eq!(MOST_CHARGES, 65_535);

    // 65,535 times 2,147,483,648, and 65,535 times 2,147,483,647.
    let lowest = vec![charge(1, 0, i32::MIN); 65_535];
    assert_eq!(state.report(&lowest), reported(&[(7, -140_735_340_871_680)], 0, 65_535, 0));
    let highest = vec![charge(1, 1, i32::MAX); 65_535];
    assert_eq!(state.report(&highest), reported(&[(9, 140_735_340_806_145)], 0, 65_535, 0));
    let missed = vec![charge(2, 0, i32::MIN); 65_535];
    assert_eq!(state.report(&missed), reported(&[], -140_735_340_871_680, 0, 65_535));

    // 32,768 times the one and 32,767 times the other, in turn.
    let both = [charge(0, 0, i32::MIN), charge(0, 0, i32::MAX)];
    let in_turn: Vec<Charge> = both.into_iter().cycle().take(65_535).collect();
    assert_eq!(state.report(&in_turn), reported(&[(7, -2_147_516_415)], 0, 65_535, 0));
}

/// "then 17 for a longer list", whatever is in it.
#[test]
fn a_longer_list_is_refused() {
    assert_eq!(Refusal::TooManyCharges.number(), 17);
    for state in [State::closed(), two_callers(), looped()] {
        for one in [charge(0, 0, 1), charge(1, 0, i32::MIN), charge(9, 9, 9), charge(0, 0, 0)] {
            for length in [65_536, 65_537, 131_072] {
                let report = state.report(&vec![one; length]);
                assert_eq!(report, refused(Refusal::TooManyCharges));
            }
        }
    }
}

// ------------------------------------------------------- a state not sound

/// A state for each of the six points, which it breaks.
fn unsound() -> [State; 6] {
    let mut states: [State; 6] = std::array::from_fn(|_| two_callers());
    states[0].workers = 9;
    states[1].cells[0][1] = Cell::Ref(0);
    states[2].cells[0][0] = Cell::Free;
    states[3].cells[1][0] = Cell::Ex(Ex { value: Value::Reading, ..ex(&two_callers(), 1, 0) });
    states[4].cells[1][0] = Cell::Ex(Ex { weight: 1_023, ..ex(&two_callers(), 1, 0) });
    states[5].entries[0][0] = Some(Entry { cell: 0, weight: 1_025, tainted: false });
    states[5].slots[0] = Some(Message::Reference { to: 1, owner: 0, entry: 0, weight: 1 });
    states[5].cells[1][2..].fill(Cell::Var { caller: 1 });
    states
}

/// "Refusals: 2; then 17": of the two, 2 is given.
#[test]
fn a_state_that_is_not_sound_is_refused() {
    for (point, state) in (1..).zip(unsound()) {
        assert_eq!(state.first_broken_point(), point);
        let placed = vec![charge(1, 1, 5); 65_536];
        let missed = vec![charge(9, 0, 5); 65_536];
        for list in [placed, missed] {
            for length in [0, 1, 65_535, 65_536] {
                assert_eq!(state.report(&list[..length]), refused(Refusal::NotSound));
            }
        }
    }
}

// ------------------------------------------------------------------- unplaced

/// "A charge whose worker or cell number is out of range, or whose cell is
/// free, is unplaced".
#[test]
fn numbers_out_of_range_and_free_cells_are_unplaced() {
    // Cell 0 is in use at both workers: a number of which only the low bits
    // were looked at would be placed.
    let state = two_callers();
    for w in [2, 3, 7, 8, 9, 16, 128, 254, 255] {
        for c in [0, 1, 31, 32, 255] {
            assert_eq!(state.payer(w, c), None);
            assert_eq!(state.report(&[charge(w, c, 3)]), reported(&[], 3, 0, 1));
        }
    }
    for w in [0, 1] {
        for c in [2, 31, 32, 33, 64, 128, 255] {
            assert_eq!(state.payer(w, c), None);
            assert_eq!(state.report(&[charge(w, c, -3)]), reported(&[], -3, 0, 1));
        }
    }
    assert_eq!(state.payer(0, 1), None);

    // All together, with one that is placed: 1 + 20 + 300 + 4,000 + 50,000.
    let charges = [
        charge(2, 0, 1),
        charge(8, 0, 20),
        charge(255, 255, 300),
        charge(0, 32, 4_000),
        charge(0, 0, -6),
        charge(0, 31, 50_000),
    ];
    assert_eq!(state.report(&charges), reported(&[(7, -6)], 54_321, 1, 5));
}

/// The edges of a state that is full: worker 7 and cell 31 are there, worker 8
/// and cell 32 are not.
#[test]
fn the_edges_of_a_full_state() {
    let mut state = started(8);
    for w in 0..8 {
        for _ in 0..32 {
            value(&mut state, Call::New { w, caller: 10 + u32::from(w) });
        }
    }
    assert_eq!(state.payer(7, 31), Some(17));
    assert_eq!(state.payer(0, 31), Some(10));
    for (w, c) in [(8, 31), (7, 32), (0, 32), (8, 0), (255, 0), (0, 255), (8, 32), (255, 255)] {
        assert_eq!(state.payer(w, c), None);
        assert_eq!(state.report(&[charge(w, c, 1)]), reported(&[], 1, 0, 1));
    }
    value(&mut state, Call::Drop { w: 7, c: 31 });
    assert_eq!(state.payer(7, 31), None);
}

/// The closed state has no worker.
#[test]
fn on_the_closed_state_all_is_unplaced() {
    let charges = [charge(0, 0, 4), charge(7, 31, i32::MIN), charge(8, 0, 5)];
    assert_eq!(State::closed().report(&charges), reported(&[], -2_147_483_639, 0, 3));
}

/// "so is one whose chain has not reached a VAR or VAL after as many references
/// as there are live entries, which only a state made by hand can show."
#[test]
fn a_loop_is_unplaced() {
    let state = looped();
    assert!(state.is_sound());
    assert_eq!(state.payer(0, 0), None);
    assert_eq!(state.payer(1, 0), None);
    let charges = [charge(0, 0, 250), charge(1, 0, -40)];
    assert_eq!(state.report(&charges), reported(&[], 210, 0, 2));

    // Not tainted, either of them breaks point 3.
    for marks in [[false, true], [true, false], [false, false]] {
        let mut state = looped();
        for (w, tainted) in marks.into_iter().enumerate() {
            state.entries[w][0] = Some(Entry { cell: 0, weight: 1, tainted });
        }
        assert_eq!(state.first_broken_point(), 3);
        assert_eq!(state.report(&charges), refused(Refusal::NotSound));
    }

    // A value that is known beside an EX of the loop does not end it.
    let mut state = looped();
    state.cells[0][0] = Cell::Ex(Ex { value: Value::Known(5), ..ex(&state, 0, 0) });
    assert!(state.is_sound());
    assert_eq!(state.report(&charges), reported(&[], 210, 0, 2));
}

/// What leads into a loop is unplaced, what stands beside it is placed.
#[test]
fn around_a_loop() {
    let mut state = looped();
    state.workers = 3;
    // Entry 0 of worker 0 names a REF to the EX; worker 2 has an EX of it as
    // well, and a REF to that.
    state.cells[0][1] = Cell::Ref(0);
    state.entries[0][0] = Some(Entry { cell: 1, weight: 5, tainted: true });
    let into = Ex { owner: 0, entry: 0, weight: 4, value: Value::Idle, asking: false };
    state.cells[2][0] = Cell::Ex(into);
    state.cells[2][1] = Cell::Ref(0);
    // VAL 2 of worker 0 has an EX at worker 1, which has an EX at worker 2.
    state.cells[0][2] = Cell::Val { n: 6, caller: 33 };
    state.entries[0][1] = Some(Entry { cell: 2, weight: 2, tainted: false });
    let beside = Ex { owner: 0, entry: 1, weight: 2, value: Value::Idle, asking: false };
    state.cells[1][1] = Cell::Ex(beside);
    state.entries[1][1] = Some(Entry { cell: 1, weight: 1, tainted: false });
    let beyond = Ex { owner: 1, entry: 1, weight: 1, value: Value::Idle, asking: false };
    state.cells[2][2] = Cell::Ex(beyond);
    state.cells[2][3] = Cell::Var { caller: 34 };
    assert_eq!(state.first_broken_point(), 0);

    for (w, c) in [(0, 0), (0, 1), (1, 0), (2, 0), (2, 1)] {
        assert_eq!(state.payer(w, c), None);
    }
    for (w, c) in [(0, 2), (1, 1), (2, 2)] {
        assert_eq!(state.payer(w, c), Some(33));
    }
    assert_eq!(state.payer(2, 3), Some(34));
    let charges = [
        charge(0, 0, 1),
        charge(0, 1, 2),
        charge(1, 0, 4),
        charge(2, 0, 8),
        charge(2, 1, 16),
        charge(0, 2, 32),
        charge(1, 1, 64),
        charge(2, 2, 128),
        charge(2, 3, 256),
        charge(2, 4, 512),
    ];
    assert_eq!(state.report(&charges), reported(&[(33, 224), (34, 256)], 543, 4, 6));
}

// --------------------------------------------------------------------- chains

/// VAR 0 of worker 0, of caller 7, is cell 0 at worker 1. VAR 1 of worker 1, of
/// caller 8, is cell 0 at worker 2. VAR 1 of worker 2, of caller 9, is bound to
/// that, so that it is a REF.
fn before_the_bind() -> State {
    let mut state = started(3);
    assert_eq!(value(&mut state, Call::New { w: 0, caller: 7 }), 0);
    assert_eq!(sent_and_delivered(&mut state, Call::Export { w: 0, c: 0, to: 1 }), 0);
    assert_eq!(value(&mut state, Call::New { w: 1, caller: 8 }), 1);
    assert_eq!(sent_and_delivered(&mut state, Call::Export { w: 1, c: 1, to: 2 }), 0);
    assert_eq!(value(&mut state, Call::New { w: 2, caller: 9 }), 1);
    assert_eq!(state.payer(2, 1), Some(9));
    assert_eq!(state.call(Call::Bind { w: 2, c: 1, x: 0 }), done(0));
    state
}

/// W-201: "cost then goes to the caller at the end of the chain." From cell 1
/// of worker 2 it is REF, EX, REF, EX, VAR.
#[test]
fn a_chain_through_ref_ex_and_ref() {
    let charges = [
        charge(0, 0, 1),
        charge(1, 0, 10),
        charge(1, 1, 100),
        charge(2, 0, 1_000),
        charge(2, 1, 10_000),
    ];
    let mut state = before_the_bind();
    assert_eq!(state.report(&charges), reported(&[(7, 11), (8, 11_100)], 0, 5, 0));

    assert_eq!(state.call(Call::Bind { w: 1, c: 1, x: 0 }), done(0));
    assert_eq!((state.cell(2, 1), state.cell(1, 1)), (Cell::Ref(0), Cell::Ref(0)));
    // Two references, as many as there are live entries.
    assert_eq!(live_entries(&state), 2);
    let all_to_7 = reported(&[(7, 11_111)], 0, 5, 0);
    assert_eq!(state.report(&charges), all_to_7);

    // So it stays where EX are reading and asking, and when the VAR is a VAL.
    assert_eq!(state.call(Call::Read { w: 2, c: 1 }), Ok(Answer::Sent(0)));
    assert_eq!(state.call(Call::Ask { w: 1, c: 1 }), Ok(Answer::Sent(1)));
    assert_eq!(state.report(&charges), all_to_7);
    assert_eq!(state.call(Call::Set { w: 0, c: 0, n: 5 }), done(0));
    assert_eq!(state.report(&charges), all_to_7);
}

/// "from its cell to a VAR or VAL": an EX that is known is neither.
#[test]
fn a_chain_through_a_known_ex() {
    let charges = [charge(1, 0, 3), charge(1, 1, 40), charge(2, 0, 500), charge(2, 1, -6_000)];
    let mut state = before_the_bind();
    value(&mut state, Call::Bind { w: 1, c: 1, x: 0 });
    value(&mut state, Call::Set { w: 0, c: 0, n: 8 });
    read_and_answered(&mut state, 1, 0);
    assert_eq!(ex(&state, 1, 0).value, Value::Known(8));
    let all_to_7 = reported(&[(7, -5_457)], 0, 4, 0);
    assert_eq!(state.report(&charges), all_to_7);

    read_and_answered(&mut state, 2, 0);
    assert_eq!(ex(&state, 2, 0).value, Value::Known(8));
    assert_eq!(state.report(&charges), all_to_7);
}

/// W-203: "the cell keeps its own caller, which amends W-201 for this one case."
/// The value is known before the bind.
#[test]
fn a_bind_to_a_known_ex_moves_no_cost() {
    let charges = [
        charge(0, 0, 1),
        charge(1, 0, 10),
        charge(1, 1, 100),
        charge(2, 0, 1_000),
        charge(2, 1, 10_000),
    ];
    let each_to_its_own = reported(&[(7, 11), (8, 11_100)], 0, 5, 0);
    let mut state = before_the_bind();
    value(&mut state, Call::Set { w: 0, c: 0, n: 5 });
    read_and_answered(&mut state, 1, 0);
    assert_eq!(state.report(&charges), each_to_its_own);
    assert_eq!(state.call(Call::Bind { w: 1, c: 1, x: 0 }), done(0));
    assert_eq!(state.cell(1, 1), Cell::Val { n: 5, caller: 8 });
    assert_eq!(state.report(&charges), each_to_its_own);

    // On at worker 2: its EX is known, and a REF to it was there before. What is
    // bound to either pays for itself, the REF goes on to caller 8.
    read_and_answered(&mut state, 2, 0);
    for (c, caller, x) in [(2, 10, 0), (3, 255, 1)] {
        assert_eq!(value(&mut state, Call::New { w: 2, caller }), c);
        assert_eq!(state.call(Call::Bind { w: 2, c, x }), done(0));
    }
    let bound = [charge(2, 2, -3), charge(2, 3, 40), charge(2, 2, i32::MAX)];
    let expected = reported(&[(10, 2_147_483_644), (255, 40)], 0, 3, 0);
    assert_eq!(state.report(&bound), expected);
    assert_eq!(state.report(&charges), each_to_its_own);

    // So it is when the EX of worker 1 is gone, and with it the way to caller 7.
    sent_and_delivered(&mut state, Call::Drop { w: 1, c: 0 });
    let gone = reported(&[(7, 1), (8, 11_100)], 10, 4, 1);
    assert_eq!(state.report(&charges), gone);
}

/// The same for an EX that is unsafe: before it is known, the bind is refused.
#[test]
fn a_bind_to_a_known_unsafe_ex_moves_no_cost() {
    // VAR 0 of worker 1, of caller 7, is cell 0 at worker 0. VAR 1 of worker 0,
    // of caller 9, is cell 1 at worker 1.
    let mut state = started(2);
    assert_eq!(value(&mut state, Call::New { w: 1, caller: 7 }), 0);
    assert_eq!(sent_and_delivered(&mut state, Call::Export { w: 1, c: 0, to: 0 }), 0);
    assert_eq!(value(&mut state, Call::New { w: 0, caller: 9 }), 1);
    assert_eq!(sent_and_delivered(&mut state, Call::Export { w: 0, c: 1, to: 1 }), 1);
    let charges = [charge(1, 0, 1), charge(0, 0, 20), charge(0, 1, 300), charge(1, 1, -4_000)];
    let each_to_its_own = reported(&[(7, 21), (9, -3_700)], 0, 4, 0);
    let bind = Call::Bind { w: 0, c: 1, x: 0 };
    assert_eq!(state.call(bind), Err(Refusal::Unsafe));
    assert_eq!(state.report(&charges), each_to_its_own);

    value(&mut state, Call::Set { w: 1, c: 0, n: 0 });
    read_and_answered(&mut state, 0, 0);
    assert_eq!(state.call(bind), done(0));
    assert_eq!(state.cell(0, 1), Cell::Val { n: 0, caller: 9 });
    assert_eq!(state.report(&charges), each_to_its_own);
    read_and_answered(&mut state, 1, 1);
    assert_eq!(state.report(&charges), each_to_its_own);
}

/// A bind that is refused leaves the cost where it was. As in K6.
#[test]
fn a_refused_bind_moves_no_cost() {
    let mut state = started(2);
    value(&mut state, Call::New { w: 1, caller: 7 });
    sent_and_delivered(&mut state, Call::Export { w: 1, c: 0, to: 0 });
    sent_and_delivered(&mut state, Call::Indirect { w: 0, c: 0, to: 1 });
    let charges = [charge(1, 0, 1), charge(0, 0, 2), charge(1, 1, 4)];
    assert_eq!(state.report(&charges), reported(&[(7, 7)], 0, 3, 0));
    assert_eq!(state.call(Call::Bind { w: 1, c: 0, x: 1 }), Err(Refusal::Unsafe));
    assert_eq!(state.report(&charges), reported(&[(7, 7)], 0, 3, 0));
}

/// A chain that goes through every entry there is, round and round the workers:
/// all 128 are live, and the last cell is 128 references away from the VAR.
/// After each step the newest cell is as many references away as entries are
/// live, so it is placed with the last that may be followed.
#[test]
fn a_chain_of_as_many_references_as_there_are_live_entries() {
    let mut state = started(8);
    value(&mut state, Call::New { w: 0, caller: 200 });
    assert_eq!(state.payer(0, 0), Some(200));
    let (mut w, mut c) = (0, 0);
    for references in 1..=WORKERS * ENTRIES {
        let to = (w + 1) % 8;
        let call = match references {
            1 => Call::Export { w, c, to },
            _ => Call::Indirect { w, c, to },
        };
        c = sent_and_delivered(&mut state, call);
        w = to;
        assert_eq!(live_entries(&state), references);
        assert_eq!(state.payer(w, c), Some(200));
    }
    assert_eq!((w, c), (0, 16));
    let expected = reported(&[(200, i64::from(i32::MAX))], 0, 1, 0);
    assert_eq!(state.report(&[charge(0, 16, i32::MAX)]), expected);
}

// ------------------------------------------------ the lines of `report_cases`

/// What the library's test program `report_cases` writes, by the file that it
/// is held to: a line for each report.
const WRITTEN: &str = include_str!("../../../crates/report_cases/stdout");

/// The state after these frames, none of which is refused.
fn after(mut state: State, frames: &[&str]) -> State {
    for frame in frames {
        let call = model::decode(frame.as_bytes()).expect("a frame");
        value(&mut state, call);
    }
    state
}

/// Charges by the worker and cell of each, and their amounts.
fn charges<const N: usize>(places: [(u8, u8); N], amounts: [i32; N]) -> Vec<Charge> {
    let each = places.into_iter().zip(amounts);
    each.map(|((w, c), amount)| charge(w, c, amount)).collect()
}

/// A report as the program writes it.
fn line(name: &str, report: &Report) -> String {
    let (code, _) = model::code_and_value(Some(report.outcome));
    let mut line = format!("{name}: {code:02x}");
    for (caller, total) in report.totals.iter().enumerate().filter(|(_, total)| **total != 0) {
        write!(line, "; {caller}: {total}").expect("a string has room");
    }
    let Report { unplaced, placed, missed, .. } = report;
    writeln!(line, "; placed {placed}, unplaced {missed}: {unplaced}").expect("a string has room");
    line
}

/// The same states, by the same frames or made by hand, and the same charges.
#[test]
fn the_model_writes_what_report_cases_writes() {
    let closed = State::closed;
    // As `two_callers`.
    let shared = after(
        closed(),
        &[
            "0102000000000000",
            "0200000000000007",
            "0500000100000000",
            "0b00000000000000",
            "0201000000000009",
        ],
    );
    // As `before_the_bind`, with callers 3, 4 and 5, and the bind.
    let chained = after(
        closed(),
        &[
            "0103000000000000",
            "0200000000000003",
            "0500000100000000",
            "0b00000000000000",
            "0201000000000004",
            "0501010200000000",
            "0b00000000000000",
            "0401010000000000",
            "0202000000000005",
            "0402010000000000",
        ],
    );
    // The VAR set to 8, and cell 0 of worker 1 read and answered.
    let known = after(
        chained.clone(),
        &["0300000000000008", "0901000000000000", "0b00000000000000", "0b00000000000000"],
    );
    // VARs of callers 0, 1, 254 and 255.
    let four_callers = after(
        closed(),
        &[
            "0101000000000000",
            "0200000000000000",
            "0200000000000001",
            "02000000000000fe",
            "02000000000000ff",
        ],
    );
    let mut looped = looped();
    looped.cells[1][1] = Cell::Var { caller: 6 };
    // An entry on which nothing is held.
    let mut unsound = State { workers: 2, ..closed() };
    unsound.cells[0][0] = Cell::Var { caller: 4 };
    unsound.entries[0][0] = Some(Entry { cell: 0, weight: 1, tainted: false });

    let mut written = String::new();
    let mut show = |name: &str, state: &State, charges: &[Charge]| {
        written += &line(name, &state.report(charges));
    };

    let three = charges([(0, 0), (1, 0), (1, 1)], [250, 40, -15]);
    let back = charges([(1, 1), (1, 0), (0, 0)], [-15, 40, 250]);
    show("three charges", &shared, &three);
    show("in another order", &shared, &back);
    show("one charge", &shared, &three[..1]);
    show("no charge", &shared, &[]);

    let each = [(0, 0), (0, 1), (0, 2), (0, 3), (0, 9)];
    let ends = [0, -1, i32::MIN, i32::MAX, -1];
    show("each to its own", &four_callers, &charges(each, ends));
    show("all to one", &four_callers, &charges([(0, 3); 5], ends));
    show("corrected", &four_callers, &charges([(0, 3); 2], [i32::MAX, -i32::MAX]));

    let lowest = vec![charge(0, 3, i32::MIN); 65_536];
    show("65535, the lowest", &four_callers, &lowest[..65_535]);
    show("65536", &four_callers, &lowest);
    show("65535, the highest", &four_callers, &vec![charge(0, 0, i32::MAX); 65_535]);
    show("65535, a free cell", &four_callers, &vec![charge(0, 4, i32::MIN); 65_535]);

    let amounts = [1, 10, 100, 1_000, 10_000];
    let along = charges([(2, 1), (2, 0), (1, 1), (1, 0), (0, 0)], amounts);
    show("a chain", &chained, &along);
    show("through a known EX", &known, &along);
    show("a loop", &looped, &charges([(0, 0), (1, 0), (1, 1)], [1, 10, 100]));

    let free = charges([(0, 1), (0, 31), (1, 2), (1, 31), (0, 0)], amounts);
    let workers = charges([(2, 0), (7, 0), (8, 0), (255, 0), (0, 0)], amounts);
    let cells = charges([(0, 32), (1, 32), (0, 255), (255, 255), (0, 0)], amounts);
    show("free cells", &shared, &free);
    show("no such worker", &shared, &workers);
    show("no such cell", &shared, &cells);
    show("the closed state", &closed(), &free);

    let ones = vec![charge(0, 0, 1); 65_536];
    show("not sound", &unsound, &ones[..5]);
    show("not sound, 65536", &unsound, &ones);
    show("not sound, none", &unsound, &[]);

    assert_eq!(written, WRITTEN);
}

// ------------------------------------------- states reached from a start

/// Where the chain of a cell that is not free ends, and who pays there.
#[derive(Clone, Copy, Debug, PartialEq)]
struct Chain {
    last: (u8, u8),
    payer: u8,
}

/// The chains of all cells, by worker and number; `None` where a cell is free.
type Chains = [[Option<Chain>; CELLS]; WORKERS];

/// The chain of a cell, followed to its end however long it is.
fn chain(state: &State, mut w: u8, mut c: u8) -> Option<Chain> {
    // A chain without a loop has at most a REF and an EX for each of 128
    // entries, and before the first.
    for _ in 0..1_000 {
        match state.cell(w, c) {
            Cell::Free => return None,
            Cell::Var { caller } | Cell::Val { caller, .. } => {
                return Some(Chain { last: (w, c), payer: caller });
            }
            Cell::Ref(named) => c = named,
            Cell::Ex(ex) => {
                c = state.entry(ex.owner, ex.entry).expect("a live entry").cell;
                w = ex.owner;
            }
        }
    }
    panic!("a loop in a state reached from a start")
}

fn chains(state: &State) -> Chains {
    let mut chains = [[None; CELLS]; WORKERS];
    for (w, row) in (0..).zip(&mut chains) {
        for (c, held) in (0..).zip(row) {
            *held = chain(state, w, c);
        }
    }
    chains
}

/// Runs the calls of the case of a seed and shows each with its outcome and the
/// state after it.
fn replay(seed: u64, mut show: impl FnMut(Call, Outcome, &State)) {
    let text = generate::case(seed).text;
    let mut state = State::closed();
    for call in text.split(|byte| *byte == b'\n').filter_map(model::decode) {
        let outcome = state.call_with::<false>(call);
        show(call, outcome, &state);
    }
}

/// What was met of binds that are done.
#[derive(Debug, Default)]
struct Met {
    binds: u32,
    /// Other cells whose chains ended in the cell that was bound.
    led_there: u32,
    /// Cells, the one that was bound among them, whose payer was another than
    /// that of the EX.
    of_other_callers: u32,
}

/// In every state every cell that is not free has a payer, the one at the end
/// of its chain. A bind that is done moves its cell, and what leads there, to
/// the end of the other's chain, unless the EX is known: then the cell stays the
/// end of these chains, and its own caller pays. Nothing else moves a chain that
/// is there before and after, and no other call moves any.
#[test]
fn only_a_bind_to_what_is_not_known_moves_cost() {
    let (mut to_known, mut to_not_known) = (Met::default(), Met::default());
    let mut stayed = 0;
    for seed in 1..=45 {
        let mut before = chains(&State::closed());
        replay(seed, |call, outcome, state| {
            let after = chains(state);
            for (w, c, chain) in each_cell(&after) {
                let payer = chain.map(|chain| chain.payer);
                assert_eq!(state.payer(w, c), payer, "seed {seed}, {call}: cell {c} of {w}");
            }
            let bound = match (call, outcome) {
                (Call::Bind { w, c, x }, Ok(_)) => {
                    let to = before[usize::from(w)][usize::from(x)].expect("not free");
                    assert_ne!(to.last, (w, c), "seed {seed}, {call}");
                    // The bind leaves the EX as it was.
                    let ex = ex(state, w, state.end(w, x));
                    Some(((w, c), to, matches!(ex.value, Value::Known(_))))
                }
                _ => None,
            };
            for ((w, c, before), (_, _, after)) in each_cell(&before).zip(each_cell(&after)) {
                let (Some(before), Some(after)) = (before, after) else {
                    continue;
                };
                let expected = match bound {
                    Some((var, to, is_known)) if before.last == var => {
                        let met = if is_known { &mut to_known } else { &mut to_not_known };
                        met.binds += u32::from((w, c) == var);
                        met.led_there += u32::from((w, c) != var);
                        met.of_other_callers += u32::from(before.payer != to.payer);
                        if is_known { before } else { to }
                    }
                    Some(_) => {
                        stayed += 1;
                        before
                    }
                    None => before,
                };
                assert_eq!(after, expected, "seed {seed}, {call}: cell {c} of {w}");
            }
            before = after;
        });
    }
    let enough = |met: &Met| met.binds.min(met.led_there).min(met.of_other_callers) > 100;
    let met = (&to_known, &to_not_known, stayed);
    assert!(enough(&to_known) && enough(&to_not_known) && stayed > 100, "{met:?}");
}

/// Every cell with its chain.
fn each_cell(chains: &Chains) -> impl Iterator<Item = (u8, u8, Option<Chain>)> + '_ {
    let rows = (0..).zip(chains);
    rows.flat_map(|(w, row)| (0..).zip(row).map(move |(c, chain)| (w, c, *chain)))
}

/// A charge with numbers mostly in range, and amounts at the ends among them.
fn any_charge(random: &mut Random) -> Charge {
    let mut below = |end: usize| match random.below(10) {
        0 => random.number() as u8,
        _ => random.below(end) as u8,
    };
    let (worker, cell) = (below(WORKERS), below(CELLS));
    let amount = match random.below(3) {
        0 => random.one_of(&[0, 1, -1, i32::MIN, i32::MAX]),
        _ => random.number() as i32,
    };
    charge(worker, cell, amount)
}

fn shuffle(charges: &mut [Charge], random: &mut Random) {
    for last in (1..charges.len()).rev() {
        charges.swap(last, random.below(last + 1));
    }
}

/// "callers' totals plus the unplaced total equal the sum of the amounts, each
/// total worked out from its own charges"; and in another order the list gives
/// the same report.
#[test]
fn totals_are_those_of_their_own_charges() {
    let (mut reports, mut placed, mut missed) = (0, 0, 0);
    for seed in 1..=90 {
        let mut random = Random::new(seed);
        let mut calls = 0;
        replay(seed, |_, _, state| {
            calls += 1;
            if calls % 64 != 0 {
                return;
            }
            let length = random.below(150);
            let mut charges: Vec<Charge> = (0..length).map(|_| any_charge(&mut random)).collect();
            let report = state.report(&charges);
            assert_eq!(report.outcome, done(0), "seed {seed}");

            let sum: i64 = charges.iter().map(|charge| i64::from(charge.amount)).sum();
            let totals: i64 = report.totals.iter().sum();
            assert_eq!(totals + report.unplaced, sum, "seed {seed}");
            assert_eq!((report.placed + report.missed) as usize, length, "seed {seed}");

            let payers: Vec<Option<u8>> = charges
                .iter()
                .map(|&Charge { worker, cell, .. }| {
                    let in_range = worker < state.workers && usize::from(cell) < CELLS;
                    let chain = if in_range { chain(state, worker, cell) } else { None };
                    chain.map(|chain| chain.payer)
                })
                .collect();
            let own = |payer: Option<u8>| -> i64 {
                let of_each = payers.iter().zip(&charges);
                let paid = of_each.filter(|(paid_by, _)| **paid_by == payer);
                paid.map(|(_, charge)| i64::from(charge.amount)).sum()
            };
            for (caller, total) in (0..=255).zip(report.totals) {
                assert_eq!(total, own(Some(caller)), "seed {seed}, caller {caller}");
            }
            assert_eq!(report.unplaced, own(None), "seed {seed}");
            let unplaced = payers.iter().filter(|payer| payer.is_none()).count();
            assert_eq!(report.missed as usize, unplaced, "seed {seed}");

            shuffle(&mut charges, &mut random);
            assert_eq!(state.report(&charges), report, "seed {seed}");
            charges.reverse();
            assert_eq!(state.report(&charges), report, "seed {seed}");
            reports += 1;
            placed += report.placed;
            missed += report.missed;
        });
    }
    let met = [reports, placed, missed];
    assert!(met.iter().all(|count| *count > 500), "{met:?}");
}
