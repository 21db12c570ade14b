//! The numbered cases of document 01, the run it prints, the places where its
//! words are easily misread, the callers of W-201, and the binds of W-203, all on
//! the model.

use endrusp::model::{
    self, Answer, CEILING, CELLS, Call, Cell, ENTRIES, Entry, Ex, LONGEST_INPUT, Message, Outcome,
    Refusal, SLOTS, State, Value, run_text,
};

fn started(p: u8) -> State {
    let mut state = State::closed();
    assert_eq!(state.call(Call::Start { p }), done(0));
    state
}

fn done(value: u32) -> Outcome {
    Ok(Answer::Done(value))
}

/// A call that is done, and its value, a cell or slot.
fn value(state: &mut State, call: Call) -> u8 {
    match state.call(call) {
        Ok(Answer::Done(value) | Answer::Sent(value)) => value as u8,
        other => panic!("{call} answered {other:?}"),
    }
}

/// A call that sends and the delivery of what it sent.
fn sent_and_delivered(state: &mut State, call: Call) -> u8 {
    let s = value(state, call);
    value(state, Call::Deliver { s })
}

/// A call that is refused and leaves the state as it was.
fn refused(state: &mut State, call: Call) -> Refusal {
    let before = state.clone();
    let refusal = state.call(call).expect_err("a refusal");
    assert_eq!(*state, before, "{call} was refused and changed the state");
    refusal
}

fn var(caller: u8) -> Cell {
    Cell::Var { caller }
}

fn ex(state: &State, w: u8, c: u8) -> Ex {
    match state.cell(w, c) {
        Cell::Ex(ex) => ex,
        other => panic!("cell {c} of worker {w} is {other:?}"),
    }
}

/// VAR 0 of worker 0, exported to worker 1 and delivered as its cell 0.
fn imported(p: u8) -> State {
    let mut state = started(p);
    value(&mut state, Call::New { w: 0, caller: 0 });
    let there = sent_and_delivered(&mut state, Call::Export { w: 0, c: 0, to: 1 });
    assert_eq!(there, 0);
    state
}

// -------------------------------------------------------- the numbered cases

#[test]
fn k1_start_0_is_refused() {
    let mut state = imported(2);
    assert_eq!(state.call(Call::Start { p: 0 }), Err(Refusal::WorkerCount));
    assert_eq!(state, State::closed());
}

#[test]
fn k2_start_8_is_done() {
    let mut state = State::closed();
    assert_eq!(state.call(Call::Start { p: 8 }), done(0));
    assert_eq!(state.workers, 8);
}

#[test]
fn k3_start_9_is_refused() {
    let mut state = imported(2);
    assert_eq!(state.call(Call::Start { p: 9 }), Err(Refusal::WorkerCount));
    assert_eq!(state, State::closed());
}

#[test]
fn k4_ten_exports_leave_weight_1_and_the_eleventh_is_refused() {
    let mut state = imported(3);
    assert_eq!(ex(&state, 1, 0).weight, 1_024);
    let export = Call::Export { w: 1, c: 0, to: 2 };
    for _ in 0..10 {
        sent_and_delivered(&mut state, export);
    }
    assert_eq!(ex(&state, 1, 0).weight, 1);
    assert_eq!(refused(&mut state, export), Refusal::WeightOne);
}

#[test]
fn k5_of_weight_3_one_is_sent_and_two_are_kept() {
    let mut state = imported(3);
    // 1,024 is made 3: 1,021 go back with a Release, by hand.
    state.cells[1][0] = Cell::Ex(Ex { weight: 3, ..ex(&state, 1, 0) });
    state.slots[0] = Some(Message::Release { owner: 0, entry: 0, weight: 1_021 });
    value(&mut state, Call::Deliver { s: 0 });

    let s = value(&mut state, Call::Export { w: 1, c: 0, to: 2 });
    let reference = Message::Reference { to: 2, owner: 0, entry: 0, weight: 1 };
    assert_eq!(state.slots[usize::from(s)], Some(reference));
    assert_eq!(ex(&state, 1, 0).weight, 2);
}

#[test]
fn k6_a_bind_that_would_close_a_circle_is_refused() {
    let mut state = started(2);
    value(&mut state, Call::New { w: 1, caller: 0 });
    assert_eq!(sent_and_delivered(&mut state, Call::Export { w: 1, c: 0, to: 0 }), 0);
    assert!(!state.safe(0, ex(&state, 0, 0)));
    assert_eq!(sent_and_delivered(&mut state, Call::Indirect { w: 0, c: 0, to: 1 }), 1);
    // The owner's number is below, but the entry is tainted.
    assert!(ex(&state, 1, 1).owner < 1);
    assert_eq!(refused(&mut state, Call::Bind { w: 1, c: 0, x: 1 }), Refusal::Unsafe);
}

#[test]
fn k7_an_exported_var_is_bound_to_a_safe_ex() {
    let mut state = imported(2);
    let var = value(&mut state, Call::New { w: 1, caller: 0 });
    value(&mut state, Call::Export { w: 1, c: var, to: 0 });
    assert_eq!(state.call(Call::Bind { w: 1, c: var, x: 0 }), done(0));
    assert_eq!(state.cell(1, var), Cell::Ref(0));
}

#[test]
fn k8_a_reading_ex_is_not_dropped() {
    let mut state = imported(2);
    assert_eq!(state.call(Call::Read { w: 1, c: 0 }), Ok(Answer::Sent(0)));
    assert_eq!(refused(&mut state, Call::Drop { w: 1, c: 0 }), Refusal::Busy);
}

#[test]
fn k9_the_only_weight_back_at_its_owner_frees_the_entry() {
    let mut state = imported(2);
    let home = sent_and_delivered(&mut state, Call::Transfer { w: 1, c: 0, to: 0 });
    // The value is the entry's cell, though the entry is gone.
    assert_eq!(home, 0);
    assert_eq!(state.entry(0, 0), None);
}

#[test]
fn k10_and_run_the_ceiling() {
    let mut state = imported(2);
    let export = Call::Export { w: 0, c: 0, to: 1 };
    for _ in 1..1_024 {
        assert_eq!(sent_and_delivered(&mut state, export), 0);
    }
    assert_eq!(state.entry(0, 0).map(|entry| entry.weight), Some(CEILING));
    assert_eq!(ex(&state, 1, 0).weight, CEILING);
    assert_eq!(refused(&mut state, export), Refusal::Ceiling);

    let s = value(&mut state, Call::Ask { w: 1, c: 0 });
    assert_eq!(state.call(Call::Deliver { s }), done(0));
    let supply = Message::Supply { asker: 1, cell: 0, weight: 0 };
    assert_eq!(state.slots[usize::from(s)], Some(supply));
    assert_eq!(state.call(Call::Deliver { s }), done(0));
    assert!(!ex(&state, 1, 0).asking);
    assert!(state.is_sound());
}

#[test]
fn an_ask_just_below_the_ceiling_gains_what_is_left() {
    let mut state = imported(2);
    // Half goes home: the entry is 512 short of a multiple of 1,024.
    sent_and_delivered(&mut state, Call::Export { w: 1, c: 0, to: 0 });
    for _ in 1..1_024 {
        sent_and_delivered(&mut state, Call::Export { w: 0, c: 0, to: 1 });
    }
    let export = Call::Export { w: 0, c: 0, to: 1 };
    assert_eq!(refused(&mut state, export), Refusal::Ceiling);
    let s = value(&mut state, Call::Ask { w: 1, c: 0 });
    value(&mut state, Call::Deliver { s });
    let supply = Message::Supply { asker: 1, cell: 0, weight: 512 };
    assert_eq!(state.slots[usize::from(s)], Some(supply));
}

// ------------------------------------------------------ the text program

/// A run as the document prints one, frames and answers in two columns: the
/// input and the output.
fn columns(run: &str) -> (String, String) {
    let mut input = String::new();
    let mut output = String::new();
    for line in run.lines() {
        let (frame, answer) = line.split_once("  ").expect("two columns");
        input += &format!("{frame}\n");
        output += &format!("{answer}\n");
    }
    (input, output)
}

/// "A whole run, input then output, line for line".
#[test]
fn the_run_that_is_printed() {
    let run = "\
0102000000000000  0000000000
0200000000000000  0000000000
0500000100000000  0000000000
0b00000000000000  0000000000
0901000000000000  4000000000
0b00000000000000  0f00000000
0300000000000007  0000000000
0b00000000000000  0000000000
0b00000000000000  0000000000
0901000000000000  0000000007
0801000000000000  0000000000
0b00000000000000  0000000000
0800000000000000  0000000040
";
    let (input, output) = columns(run);
    assert_eq!(String::from_utf8(run_text(input.as_bytes())), Ok(output.clone()));
    // The last newline may be missing.
    assert_eq!(run_text(input.trim_end().as_bytes()), output.as_bytes());
}

#[test]
fn the_ends_of_the_input() {
    let not_a_frame = b"ff00000000\n";
    assert_eq!(run_text(b""), b"");
    assert_eq!(run_text(b"\n"), not_a_frame);
    assert_eq!(run_text(b"\n\n"), not_a_frame.repeat(2));
    assert_eq!(run_text(b"x"), not_a_frame);
    assert_eq!(run_text(&b"\n".repeat(LONGEST_INPUT)), not_a_frame.repeat(LONGEST_INPUT));
    assert_eq!(run_text(&b"\n".repeat(LONGEST_INPUT + 1)), b"ffffffffff\n");
}

#[test]
fn lines_that_are_not_frames() {
    for line in [
        "",
        "0102000000000000\r",
        " 102000000000000",
        "010200000000000",
        "01020000000000000",
        "01020000000000000102000000000000",
        "0C00000000000000",
        "0c0000000000000g",
        "0c0000000000000/",
        "0c0000000000000:",
        "0c0000000000000`",
        "0c0000000000000\0",
        "0x02000000000000",
        // Calls that there are not.
        "0002000000000000",
        "0d00000000000000",
        "ff00000000000000",
        // A byte or number that is not used and not 0.
        "0102010000000000",
        "0102000000000001",
        "0200010000000000",
        "0200000100000000",
        "0200010000000007",
        "0200000100000007",
        "0300000100000000",
        "0400000080000000",
        "0800000100000000",
        "0900000001000000",
        "0a00000000000100",
        "0b00010000000000",
        "0c01000000000000",
        "0c00000000000001",
    ] {
        assert_eq!(model::decode(line.as_bytes()), None, "{line:?}");
    }
    // Such a line changes nothing: the cell after it is still the lowest.
    let text = b"0102000000000000\n0200000100000000\n0200000000000000\n";
    assert_eq!(run_text(text), b"0000000000\nff00000000\n0000000000\n");
}

#[test]
fn every_call_has_its_frame() {
    let calls = [
        (Call::Start { p: 0xa1 }, "01a1000000000000"),
        (Call::New { w: 0xa1, caller: 0 }, "02a1000000000000"),
        (Call::New { w: 0, caller: 255 }, "02000000000000ff"),
        (Call::New { w: 0, caller: 256 }, "0200000000000100"),
        (Call::New { w: 1, caller: 0x0102_abcd }, "020100000102abcd"),
        (Call::New { w: 0, caller: u32::MAX }, "02000000ffffffff"),
        (Call::Set { w: 1, c: 2, n: 0x0102_abcd }, "030102000102abcd"),
        (Call::Bind { w: 1, c: 2, x: 3 }, "0401020300000000"),
        (Call::Export { w: 1, c: 2, to: 3 }, "0501020300000000"),
        (Call::Indirect { w: 1, c: 2, to: 3 }, "0601020300000000"),
        (Call::Transfer { w: 1, c: 2, to: 3 }, "0701020300000000"),
        (Call::Drop { w: 1, c: 2 }, "0801020000000000"),
        (Call::Read { w: 1, c: 2 }, "0901020000000000"),
        (Call::Ask { w: 1, c: 2 }, "0a01020000000000"),
        (Call::Deliver { s: 0xff }, "0bff000000000000"),
        (Call::Bound, "0c00000000000000"),
    ];
    for (call, frame) in calls {
        assert_eq!(model::encode(call), frame.as_bytes());
        assert_eq!(model::decode(frame.as_bytes()), Some(call));
    }
    assert_eq!(Call::New { w: 0, caller: 7 }.to_string(), "new(0, 7)");
}

// ------------------------------------------------- the readings of the words

#[test]
fn the_closed_state_is_sound() {
    let mut state = State::closed();
    assert!(state.is_sound());
    assert_eq!(refused(&mut state, Call::New { w: 0, caller: 0 }), Refusal::NoSuchWorker);
    assert_eq!(refused(&mut state, Call::Deliver { s: 0 }), Refusal::NoSuchMessage);
    assert_eq!(state.call(Call::Bound), done(0));
}

#[test]
fn the_lowest_number_is_given_over_all_arguments() {
    let mut state = imported(2);
    // `to` equals w, and neither is a worker.
    assert_eq!(refused(&mut state, Call::Export { w: 9, c: 0, to: 9 }), Refusal::NoSuchWorker);
    assert_eq!(refused(&mut state, Call::Export { w: 1, c: 9, to: 1 }), Refusal::SameWorker);
    // c is not a VAR, and x is free.
    assert_eq!(refused(&mut state, Call::Bind { w: 1, c: 0, x: 31 }), Refusal::NoSuchCell);
    assert_eq!(refused(&mut state, Call::Bind { w: 1, c: 0, x: 32 }), Refusal::NoSuchCell);
    assert_eq!(refused(&mut state, Call::Bind { w: 1, c: 0, x: 0 }), Refusal::WrongKind);
    // A VAR is its own end.
    assert_eq!(refused(&mut state, Call::Bind { w: 0, c: 0, x: 0 }), Refusal::WrongKind);
    assert_eq!(refused(&mut state, Call::Deliver { s: 64 }), Refusal::NoSuchMessage);
}

#[test]
fn booked_cells_are_kept_free() {
    let mut state = imported(2);
    // 31 References on their way to worker 1, which has 31 free cells.
    for _ in 0..31 {
        value(&mut state, Call::Export { w: 0, c: 0, to: 1 });
    }
    assert_eq!(refused(&mut state, Call::New { w: 1, caller: 0 }), Refusal::NoFreeCell);
    // Even though each of them will join the EX that is there.
    let export = Call::Export { w: 0, c: 0, to: 1 };
    assert_eq!(refused(&mut state, export), Refusal::NoFreeCell);
    value(&mut state, Call::Deliver { s: 7 });
    // The lowest empty slot.
    assert_eq!(value(&mut state, export), 7);
}

#[test]
fn a_reference_home_needs_a_free_cell_as_well() {
    let mut state = imported(2);
    for c in 1..CELLS as u32 {
        assert_eq!(state.call(Call::New { w: 0, caller: 0 }), done(c));
    }
    let home = Call::Transfer { w: 1, c: 0, to: 0 };
    assert_eq!(refused(&mut state, home), Refusal::NoFreeCell);
}

#[test]
fn full_slots_refuse_only_what_sends() {
    let mut state = started(8);
    // Worker 1 has a known EX, a reading one, an asking one and an idle one.
    for c in 0..4 {
        value(&mut state, Call::New { w: 0, caller: 0 });
        sent_and_delivered(&mut state, Call::Export { w: 0, c, to: 1 });
    }
    value(&mut state, Call::Set { w: 0, c: 0, n: 9 });
    let s = value(&mut state, Call::Read { w: 1, c: 0 });
    value(&mut state, Call::Deliver { s });
    value(&mut state, Call::Deliver { s });
    value(&mut state, Call::Read { w: 1, c: 1 });
    value(&mut state, Call::Ask { w: 1, c: 2 });
    let var = value(&mut state, Call::New { w: 1, caller: 0 });
    for to in (2..8).cycle().take(SLOTS - 2) {
        value(&mut state, Call::Export { w: 0, c: 3, to });
    }

    assert_eq!(state.call(Call::Read { w: 0, c: 0 }), done(9));
    assert_eq!(state.call(Call::Read { w: 1, c: 0 }), done(9));
    assert_eq!(state.call(Call::Read { w: 1, c: var }), Ok(Answer::Unbound));
    assert_eq!(state.call(Call::Read { w: 1, c: 1 }), Ok(Answer::Waiting));
    assert_eq!(state.call(Call::Ask { w: 1, c: 2 }), Ok(Answer::Waiting));
    for call in [
        Call::Export { w: 0, c: 0, to: 1 },
        Call::Export { w: 1, c: 3, to: 2 },
        Call::Indirect { w: 1, c: 3, to: 2 },
        Call::Transfer { w: 1, c: 3, to: 2 },
        Call::Drop { w: 1, c: 3 },
        Call::Read { w: 1, c: 3 },
        Call::Ask { w: 1, c: 3 },
    ] {
        assert_eq!(refused(&mut state, call), Refusal::NoEmptySlot, "{call}");
    }
    assert_eq!(state.call(Call::Drop { w: 1, c: var }), done(64));
}

#[test]
fn entries_run_out() {
    let mut state = imported(3);
    for c in 1..ENTRIES as u8 {
        value(&mut state, Call::New { w: 0, caller: 0 });
        value(&mut state, Call::Export { w: 0, c, to: 1 });
    }
    value(&mut state, Call::New { w: 0, caller: 0 });
    let export = Call::Export { w: 0, c: 16, to: 1 };
    assert_eq!(refused(&mut state, export), Refusal::NoFreeEntry);
    // A cell that has its entry needs none.
    value(&mut state, Call::Export { w: 0, c: 15, to: 1 });
}

#[test]
fn whatever_a_live_entry_names_is_busy() {
    let mut state = imported(2);
    assert_eq!(refused(&mut state, Call::Drop { w: 0, c: 0 }), Refusal::Busy);
    value(&mut state, Call::Set { w: 0, c: 0, n: 1 });
    assert_eq!(refused(&mut state, Call::Drop { w: 0, c: 0 }), Refusal::Busy);
    // A REF that an entry names, and the EX that the REF names.
    let var = value(&mut state, Call::New { w: 1, caller: 0 });
    value(&mut state, Call::Export { w: 1, c: var, to: 0 });
    value(&mut state, Call::Bind { w: 1, c: var, x: 0 });
    assert_eq!(refused(&mut state, Call::Drop { w: 1, c: var }), Refusal::Busy);
    assert_eq!(refused(&mut state, Call::Drop { w: 1, c: 0 }), Refusal::Busy);
    assert_eq!(refused(&mut state, Call::Transfer { w: 1, c: 0, to: 0 }), Refusal::Busy);
}

#[test]
fn an_entry_that_is_there_keeps_its_mark() {
    let mut state = started(3);
    value(&mut state, Call::New { w: 1, caller: 0 });
    sent_and_delivered(&mut state, Call::Export { w: 1, c: 0, to: 0 });
    value(&mut state, Call::Indirect { w: 0, c: 0, to: 2 });
    value(&mut state, Call::Indirect { w: 0, c: 0, to: 2 });
    assert_eq!(state.entry(0, 0), Some(Entry { cell: 0, weight: 2_048, tainted: true }));
}

#[test]
fn a_read_goes_along_a_chain_and_back_at_once() {
    let mut state = imported(3);
    sent_and_delivered(&mut state, Call::Indirect { w: 1, c: 0, to: 2 });
    assert_eq!(state.call(Call::Read { w: 2, c: 0 }), Ok(Answer::Sent(0)));
    // Two live entries: E + 1.
    assert_eq!(state.call(Call::Bound), done(3));
    assert_eq!(state.call(Call::Deliver { s: 0 }), done(0));
    assert_eq!(refused(&mut state, Call::Deliver { s: 0 }), Refusal::NotReady);
    // The EX between is known by the time the read is beyond it.
    value(&mut state, Call::Set { w: 0, c: 0, n: 5 });
    assert_eq!(state.call(Call::Read { w: 1, c: 0 }), Ok(Answer::Sent(1)));
    value(&mut state, Call::Deliver { s: 1 });
    value(&mut state, Call::Deliver { s: 1 });
    assert_eq!(ex(&state, 1, 0).value, Value::Known(5));
    assert!(state.is_sound());
    value(&mut state, Call::Deliver { s: 0 });
    assert_eq!(state.slots[0], Some(Message::Answer { reader: 2, cell: 0, n: 5 }));
    value(&mut state, Call::Deliver { s: 0 });
    assert_eq!(state.call(Call::Read { w: 2, c: 0 }), done(5));
    assert_eq!(state.call(Call::Bound), done(0));
}

// ------------------------------------------------------ the callers of W-201

/// "`new` takes a caller number, 0 to 255", and the VAR carries it.
#[test]
fn new_takes_every_caller_of_a_byte() {
    for caller in 0..=255 {
        let mut state = started(2);
        assert_eq!(state.call(Call::New { w: 1, caller: u32::from(caller) }), done(0));
        let mut expected = started(2);
        expected.cells[1][0] = var(caller);
        assert_eq!(state, expected);
    }
    let mut state = started(1);
    assert_eq!(state.call(Call::New { w: 0, caller: 255 }), done(0));
    assert_eq!(state.call(Call::New { w: 0, caller: 0 }), done(1));
    assert_eq!(state.cells[0][..3], [var(255), var(0), Cell::Free]);
}

/// "16 for a caller above 255".
#[test]
fn new_takes_no_caller_above_255() {
    let mut state = imported(2);
    for caller in [256, 257, 511, 512, 65_535, 65_536, 1 << 24, 1 << 31, u32::MAX] {
        let new = Call::New { w: 0, caller };
        assert_eq!(refused(&mut state, new), Refusal::NoSuchCaller, "{new}");
    }
    assert_eq!(Refusal::NoSuchCaller.number(), 16);
}

/// "after 3 and before 12".
#[test]
fn a_caller_above_255_is_refused_after_3_and_before_12() {
    let good = |w| Call::New { w, caller: 255 };
    let bad = |w| Call::New { w, caller: 256 };
    let worst = |w| Call::New { w, caller: u32::MAX };

    // 3 and 16.
    let mut state = State::closed();
    assert_eq!(refused(&mut state, bad(0)), Refusal::NoSuchWorker);
    let mut state = started(2);
    for w in [2, 7, 8, 255] {
        assert_eq!(refused(&mut state, bad(w)), Refusal::NoSuchWorker);
        assert_eq!(refused(&mut state, worst(w)), Refusal::NoSuchWorker);
    }

    // 16 and 12: every cell of worker 0 is in use.
    for c in 0..CELLS as u32 {
        assert_eq!(state.call(good(0)), done(c));
    }
    assert_eq!(refused(&mut state, good(0)), Refusal::NoFreeCell);
    assert_eq!(refused(&mut state, bad(0)), Refusal::NoSuchCaller);
    assert_eq!(refused(&mut state, worst(0)), Refusal::NoSuchCaller);
    assert_eq!(refused(&mut state, bad(1)), Refusal::NoSuchCaller);
    // 3 and 16, worker 0 still without a free cell.
    assert_eq!(refused(&mut state, bad(2)), Refusal::NoSuchWorker);

    // 16 and 12: every free cell of worker 1 is booked.
    let mut state = imported(2);
    for _ in 0..31 {
        value(&mut state, Call::Export { w: 0, c: 0, to: 1 });
    }
    assert_eq!(refused(&mut state, good(1)), Refusal::NoFreeCell);
    assert_eq!(refused(&mut state, bad(1)), Refusal::NoSuchCaller);

    // 2 and 16, and with 3: a REF that names a VAR.
    let mut state = started(1);
    state.cells[0][..2].copy_from_slice(&[var(7), Cell::Ref(0)]);
    assert_eq!(refused(&mut state, good(0)), Refusal::NotSound);
    assert_eq!(refused(&mut state, bad(0)), Refusal::NotSound);
    assert_eq!(refused(&mut state, worst(1)), Refusal::NotSound);
}

/// "`set` keeps it".
#[test]
fn set_keeps_the_caller() {
    for caller in [0, 1, 7, 254, 255] {
        for n in [0, 1, 255, 256, u32::MAX] {
            let mut state = started(1);
            value(&mut state, Call::New { w: 0, caller: u32::from(caller) });
            assert_eq!(state.call(Call::Set { w: 0, c: 0, n }), done(0));
            let mut expected = started(1);
            expected.cells[0][0] = Cell::Val { n, caller };
            assert_eq!(state, expected);
            assert_eq!(state.call(Call::Read { w: 0, c: 0 }), done(n));
        }
    }
}

/// "A bind loses the variable's own caller", and "a REF or EX has none of its
/// own". A bind to an EX that is known is W-203's.
#[test]
fn a_bind_loses_the_caller() {
    // VAR 1 of worker 1, exported or not, with a caller.
    let with = |caller, exported| {
        let mut state = imported(2);
        assert_eq!(value(&mut state, Call::New { w: 1, caller }), 1);
        if exported {
            value(&mut state, Call::Export { w: 1, c: 1, to: 0 });
        }
        state
    };
    for exported in [false, true] {
        let (mut one, mut other) = (with(7, exported), with(255, exported));
        assert_ne!(one, other);
        assert_eq!(one.call(Call::Bind { w: 1, c: 1, x: 0 }), done(0));
        assert_eq!(other.call(Call::Bind { w: 1, c: 1, x: 0 }), done(0));
        assert_eq!(one.cell(1, 1), Cell::Ref(0));
        assert_eq!(one, other);
    }
    // The next VAR in that cell has the caller of its own new.
    let mut state = with(7, false);
    value(&mut state, Call::Bind { w: 1, c: 1, x: 0 });
    assert_eq!(state.call(Call::Drop { w: 1, c: 1 }), done(64));
    assert_eq!(state.cell(1, 1), Cell::Free);
    assert_eq!(state.call(Call::New { w: 1, caller: 9 }), done(1));
    assert_eq!(state.cell(1, 1), var(9));
    // So it is after a VAR and after a VAL.
    value(&mut state, Call::Drop { w: 1, c: 1 });
    assert_eq!(state.call(Call::New { w: 1, caller: 0 }), done(1));
    assert_eq!(state.cell(1, 1), var(0));
    value(&mut state, Call::Set { w: 1, c: 1, n: 3 });
    value(&mut state, Call::Drop { w: 1, c: 1 });
    assert_eq!(state.call(Call::New { w: 1, caller: 255 }), done(1));
    assert_eq!(state.cell(1, 1), var(255));
}

/// A bind that is refused leaves the VAR its caller.
#[test]
fn a_refused_bind_keeps_the_caller() {
    // As in K6.
    let mut state = started(2);
    value(&mut state, Call::New { w: 1, caller: 7 });
    sent_and_delivered(&mut state, Call::Export { w: 1, c: 0, to: 0 });
    sent_and_delivered(&mut state, Call::Indirect { w: 0, c: 0, to: 1 });
    assert_eq!(refused(&mut state, Call::Bind { w: 1, c: 0, x: 1 }), Refusal::Unsafe);
    assert_eq!(refused(&mut state, Call::Bind { w: 1, c: 0, x: 0 }), Refusal::WrongKind);
    assert_eq!(state.cell(1, 0), var(7));
}

/// All that happens around a VAR and a VAL leaves their callers as they were.
#[test]
fn other_calls_leave_callers_alone() {
    let mut state = started(3);
    assert_eq!(state.call(Call::New { w: 0, caller: 7 }), done(0));
    assert_eq!(state.call(Call::New { w: 0, caller: 8 }), done(1));
    assert_eq!(state.call(Call::Set { w: 0, c: 1, n: 5 }), done(0));
    assert_eq!(state.call(Call::New { w: 0, caller: 9 }), done(2));
    let calls = [
        (Call::Export { w: 0, c: 0, to: 1 }, done(0)),
        (Call::Export { w: 0, c: 1, to: 1 }, done(1)),
        (Call::Deliver { s: 0 }, done(0)),
        (Call::Deliver { s: 1 }, done(1)),
        (Call::Read { w: 0, c: 0 }, Ok(Answer::Unbound)),
        (Call::Read { w: 0, c: 1 }, done(5)),
        // A Read of the VAR, which stays, and one of the VAL with its Answer.
        (Call::Read { w: 1, c: 0 }, Ok(Answer::Sent(0))),
        (Call::Deliver { s: 0 }, Err(Refusal::NotReady)),
        (Call::Read { w: 1, c: 1 }, Ok(Answer::Sent(1))),
        (Call::Deliver { s: 1 }, done(0)),
        (Call::Deliver { s: 1 }, done(1)),
        (Call::Read { w: 1, c: 1 }, done(5)),
        // An Ask and its Supply.
        (Call::Ask { w: 1, c: 0 }, Ok(Answer::Sent(1))),
        (Call::Deliver { s: 1 }, done(0)),
        (Call::Deliver { s: 1 }, done(0)),
        // By reference to worker 2, and home from there.
        (Call::Export { w: 1, c: 0, to: 2 }, done(1)),
        (Call::Deliver { s: 1 }, done(0)),
        (Call::Transfer { w: 2, c: 0, to: 0 }, done(1)),
        (Call::Deliver { s: 1 }, done(0)),
        // Indirectly to worker 2, and released there.
        (Call::Indirect { w: 1, c: 1, to: 2 }, done(1)),
        (Call::Deliver { s: 1 }, done(0)),
        (Call::Drop { w: 2, c: 0 }, done(1)),
        (Call::Deliver { s: 1 }, done(0)),
        // A REF to the EX of the VAR.
        (Call::New { w: 1, caller: 3 }, done(2)),
        (Call::Bind { w: 1, c: 2, x: 0 }, done(0)),
        (Call::Drop { w: 1, c: 2 }, done(64)),
        // The EX of the VAL goes to worker 2.
        (Call::Transfer { w: 1, c: 1, to: 2 }, done(1)),
        (Call::Deliver { s: 1 }, done(0)),
        // Another cell of the same worker.
        (Call::Set { w: 0, c: 2, n: 6 }, done(0)),
        (Call::Drop { w: 0, c: 2 }, done(64)),
        (Call::New { w: 0, caller: 255 }, done(2)),
        // What is refused.
        (Call::New { w: 0, caller: 256 }, Err(Refusal::NoSuchCaller)),
        (Call::Set { w: 0, c: 1, n: 9 }, Err(Refusal::WrongKind)),
        (Call::Bind { w: 0, c: 0, x: 1 }, Err(Refusal::WrongKind)),
        (Call::Drop { w: 0, c: 0 }, Err(Refusal::Busy)),
        // One Read and two live entries: E + 1.
        (Call::Bound, done(3)),
    ];
    for (number, (call, outcome)) in calls.into_iter().enumerate() {
        assert_eq!(state.call(call), outcome, "call {number}, {call}");
        let carried = [state.cell(0, 0), state.cell(0, 1)];
        assert_eq!(carried, [var(7), Cell::Val { n: 5, caller: 8 }], "call {number}, {call}");
    }
    // The VAR is set at last, and its Read is answered.
    assert_eq!(state.call(Call::Set { w: 0, c: 0, n: u32::MAX }), done(0));
    for s in [0, 0] {
        assert_eq!(state.call(Call::Deliver { s }), done(0));
        assert_eq!(state.cell(0, 0), Cell::Val { n: u32::MAX, caller: 7 });
    }
    assert_eq!(state.call(Call::Read { w: 1, c: 0 }), done(u32::MAX));
}

/// "Two cells that differ in caller are different cells, so every statement
/// about the state reads the wider record."
#[test]
fn states_that_differ_in_one_caller_differ() {
    let state = imported(2);
    for (here, there) in [
        (var(7), var(8)),
        (var(0), var(255)),
        (Cell::Val { n: 5, caller: 7 }, Cell::Val { n: 5, caller: 8 }),
        (Cell::Val { n: 7, caller: 8 }, Cell::Val { n: 8, caller: 7 }),
    ] {
        assert_ne!(here, there);
        let (mut one, mut other) = (state.clone(), state.clone());
        one.cells[1][31] = here;
        other.cells[1][31] = there;
        assert!(one.is_sound() && other.is_sound());
        assert_ne!(one, other);
        other.cells[1][31] = here;
        assert_eq!(one, other);
    }
}

/// "A read is ready unless the end of its entry's cell is a VAR", whoever its
/// caller is.
#[test]
fn ready_does_not_depend_on_the_caller() {
    for caller in [0, 7, 255] {
        let mut state = started(2);
        value(&mut state, Call::New { w: 0, caller });
        sent_and_delivered(&mut state, Call::Export { w: 0, c: 0, to: 1 });
        assert_eq!(state.call(Call::Read { w: 0, c: 0 }), Ok(Answer::Unbound));
        assert_eq!(state.call(Call::Read { w: 1, c: 0 }), Ok(Answer::Sent(0)));
        let read = Message::Read { reader: 1, cell: 0, owner: 0, entry: 0 };
        assert_eq!(state.slots[0], Some(read));
        assert!(!state.ready(read));
        assert_eq!(refused(&mut state, Call::Deliver { s: 0 }), Refusal::NotReady);

        value(&mut state, Call::Set { w: 0, c: 0, n: 5 });
        assert!(state.ready(read));
        assert_eq!(state.call(Call::Deliver { s: 0 }), done(0));
        assert_eq!(state.slots[0], Some(Message::Answer { reader: 1, cell: 0, n: 5 }));
    }
}

/// Frames of new with numbers: cells and refusals, 16 printed as 10.
#[test]
fn callers_in_a_text() {
    let mut run = "\
0200000000000100  0300000000
0102000000000000  0000000000
0200000000000100  1000000000
02000000000000ff  0000000000
0200000000000007  0000000001
02000000ffffffff  1000000000
0200000001000000  1000000000
0202000000000007  0300000000
0202000000000100  0300000000
0200010000000007  ff00000000
0200000100000007  ff00000000
02000000000000FF  ff00000000
0300010000000005  0000000000
0900010000000000  0000000005
0900000000000000  4200000000
"
    .to_string();
    // Cells 2 to 31, and then there is none.
    for c in 2..32 {
        run += &format!("02000000000000{c:02x}  00000000{c:02x}\n");
    }
    run += "\
0200000000000000  0c00000000
02000000000000ff  0c00000000
0200000000000100  1000000000
0202000000000100  0300000000
0201000000000008  0000000000
";
    let (input, output) = columns(&run);
    assert_eq!(String::from_utf8(run_text(input.as_bytes())), Ok(output));
}

// -------------------------------------------------------- the binds of W-203

/// VAR 0 of an owner, of caller 7, exported to a worker and delivered as its
/// cell 0; there are three workers.
fn imported_from(owner: u8, w: u8) -> State {
    let mut state = started(3);
    assert_eq!(value(&mut state, Call::New { w: owner, caller: 7 }), 0);
    assert_eq!(sent_and_delivered(&mut state, Call::Export { w: owner, c: 0, to: w }), 0);
    state
}

/// The VAR is set, and the EX that names it read and answered.
fn set_and_answered(state: &mut State, owner: u8, w: u8, n: u32) {
    assert_eq!(state.call(Call::Set { w: owner, c: 0, n }), done(0));
    let s = value(state, Call::Read { w, c: 0 });
    assert_eq!(state.call(Call::Deliver { s }), done(0));
    assert_eq!(state.call(Call::Deliver { s }), done(0));
    assert_eq!(ex(state, w, 0).value, Value::Known(n));
}

fn known_from(owner: u8, w: u8, n: u32) -> State {
    let mut state = imported_from(owner, w);
    set_and_answered(&mut state, owner, w, n);
    state
}

/// A VAR of a worker, exported to another and delivered there.
fn exported_var(state: &mut State, w: u8, caller: u32, to: u8) -> u8 {
    let c = value(state, Call::New { w, caller });
    sent_and_delivered(state, Call::Export { w, c, to });
    c
}

/// A VAR of a worker, bound to its cell 0, an EX that is not known: a REF.
fn ref_to_the_ex(state: &mut State, w: u8) -> u8 {
    let c = value(state, Call::New { w, caller: 9 });
    assert_eq!(state.call(Call::Bind { w, c, x: 0 }), done(0));
    assert_eq!(state.cell(w, c), Cell::Ref(0));
    c
}

/// A bind that is done, makes a VAL with this caller, and changes nothing else.
fn bound_to_a_value(state: &mut State, bind: Call, n: u32, caller: u8) {
    let Call::Bind { w, c, .. } = bind else {
        panic!("{bind} is no bind");
    };
    let mut expected = state.clone();
    expected.cells[usize::from(w)][usize::from(c)] = Cell::Val { n, caller };
    assert_eq!(state.call(bind), done(0), "{bind}");
    assert_eq!(*state, expected, "{bind}");
    assert_eq!(state.first_broken_point(), 0, "{bind}");
    assert_eq!(state.call(Call::Read { w, c }), done(n), "{bind}");
}

/// "binding to a known EX makes the cell VAL with that value, exported or not",
/// for a safe EX as for an unsafe one, and "the cell keeps its own caller",
/// which is not the one at the end of the chain.
#[test]
fn a_bind_to_a_known_ex_makes_a_val() {
    for (owner, w, is_safe) in [(1, 0, false), (2, 1, false), (0, 1, true), (1, 2, true)] {
        for n in [0, 1, 1 << 31, 4_294_967_295] {
            for caller in [0, 6, 8, 255] {
                let mut state = known_from(owner, w, n);
                assert_eq!(state.safe(w, ex(&state, w, 0)), is_safe);
                let alone = value(&mut state, Call::New { w, caller: u32::from(caller) });
                let exported = exported_var(&mut state, w, u32::from(caller), (w + 1) % 3);
                bound_to_a_value(&mut state, Call::Bind { w, c: alone, x: 0 }, n, caller);
                bound_to_a_value(&mut state, Call::Bind { w, c: exported, x: 0 }, n, caller);
            }
        }
    }
}

/// x is a REF to the known EX, which stays a REF.
#[test]
fn a_bind_to_a_ref_whose_end_is_known_makes_a_val() {
    for (owner, w) in [(1, 0), (0, 1)] {
        for n in [0, 4_294_967_295] {
            let mut state = imported_from(owner, w);
            let x = ref_to_the_ex(&mut state, w);
            let alone = value(&mut state, Call::New { w, caller: 8 });
            let exported = exported_var(&mut state, w, 255, owner);
            set_and_answered(&mut state, owner, w, n);
            bound_to_a_value(&mut state, Call::Bind { w, c: alone, x }, n, 8);
            bound_to_a_value(&mut state, Call::Bind { w, c: exported, x }, n, 255);
            assert_eq!(state.cell(w, x), Cell::Ref(0));
        }
    }
}

/// "Refusal 8 is given only for an EX that is not known": one EX, or a REF to
/// it, while it is idle, while it is reading, and once it is known.
#[test]
fn an_unsafe_ex_is_refused_until_it_is_known() {
    let mut state = imported_from(1, 0);
    let to_the_ex = ref_to_the_ex(&mut state, 0);
    let vars = [8, 9].map(|caller| exported_var(&mut state, 0, caller, 1));
    let binds =
        [Call::Bind { w: 0, c: vars[0], x: 0 }, Call::Bind { w: 0, c: vars[1], x: to_the_ex }];
    let both_refused = |state: &mut State| {
        for bind in binds {
            assert_eq!(refused(state, bind), Refusal::Unsafe, "{bind}");
        }
    };

    both_refused(&mut state);
    let s = value(&mut state, Call::Read { w: 0, c: 0 });
    both_refused(&mut state);
    // The value is at the owner, then on its way: the EX is reading.
    value(&mut state, Call::Set { w: 1, c: 0, n: 6 });
    both_refused(&mut state);
    value(&mut state, Call::Deliver { s });
    assert_eq!(state.slots[usize::from(s)], Some(Message::Answer { reader: 0, cell: 0, n: 6 }));
    both_refused(&mut state);
    value(&mut state, Call::Deliver { s });
    bound_to_a_value(&mut state, binds[0], 6, 8);
    bound_to_a_value(&mut state, binds[1], 6, 9);
}

/// An EX that is unsafe for its entry's mark alone.
#[test]
fn an_ex_of_a_tainted_entry_is_refused_until_it_is_known() {
    let mut state = imported_from(2, 0);
    assert_eq!(sent_and_delivered(&mut state, Call::Indirect { w: 0, c: 0, to: 1 }), 0);
    assert_eq!((ex(&state, 1, 0).owner, ex(&state, 1, 0).entry), (0, 0));
    assert_eq!(state.entry(0, 0), Some(Entry { cell: 0, weight: 1_024, tainted: true }));
    let c = exported_var(&mut state, 1, 8, 2);
    let bind = Call::Bind { w: 1, c, x: 0 };
    assert_eq!(refused(&mut state, bind), Refusal::Unsafe);

    value(&mut state, Call::Set { w: 2, c: 0, n: 5 });
    let s = value(&mut state, Call::Read { w: 1, c: 0 });
    // On to worker 2, there an Answer, and back.
    for _ in 0..3 {
        assert_eq!(refused(&mut state, bind), Refusal::Unsafe);
        assert_eq!(state.call(Call::Deliver { s }), done(0));
    }
    bound_to_a_value(&mut state, bind, 5, 8);
}

/// A safe EX makes a REF of an exported VAR while it is idle and while it is
/// reading, and a VAL once it is known. The REFs stay.
#[test]
fn a_safe_ex_makes_a_ref_until_it_is_known() {
    let mut state = imported_from(0, 1);
    assert_eq!([8, 9, 10].map(|caller| exported_var(&mut state, 1, caller, 2)), [1, 2, 3]);
    assert_eq!(state.call(Call::Bind { w: 1, c: 1, x: 0 }), done(0));
    let s = value(&mut state, Call::Read { w: 1, c: 0 });
    assert_eq!(state.call(Call::Bind { w: 1, c: 2, x: 0 }), done(0));
    value(&mut state, Call::Set { w: 0, c: 0, n: 6 });
    value(&mut state, Call::Deliver { s });
    value(&mut state, Call::Deliver { s });
    bound_to_a_value(&mut state, Call::Bind { w: 1, c: 3, x: 0 }, 6, 10);
    assert_eq!(state.cells[1][1..3], [Cell::Ref(0), Cell::Ref(0)]);
}

/// K6 goes on as it began: its EX leads back to the VAR and is not known as long
/// as that is one.
#[test]
fn the_circle_of_k6_is_never_closed() {
    let mut state = started(2);
    value(&mut state, Call::New { w: 1, caller: 7 });
    sent_and_delivered(&mut state, Call::Export { w: 1, c: 0, to: 0 });
    assert_eq!(sent_and_delivered(&mut state, Call::Indirect { w: 0, c: 0, to: 1 }), 1);
    let bind = Call::Bind { w: 1, c: 0, x: 1 };
    assert_eq!(refused(&mut state, bind), Refusal::Unsafe);
    assert_eq!(state.call(Call::Read { w: 1, c: 1 }), Ok(Answer::Sent(0)));
    assert_eq!(refused(&mut state, bind), Refusal::Unsafe);
    assert_eq!(state.call(Call::Deliver { s: 0 }), done(0));
    assert_eq!(refused(&mut state, Call::Deliver { s: 0 }), Refusal::NotReady);
    assert_eq!(refused(&mut state, bind), Refusal::Unsafe);

    // Once it is known, the cell is a VAL.
    value(&mut state, Call::Set { w: 1, c: 0, n: 5 });
    assert_eq!(state.call(Call::Deliver { s: 0 }), done(0));
    assert_eq!(state.call(Call::Deliver { s: 0 }), done(1));
    assert_eq!(refused(&mut state, bind), Refusal::WrongKind);
    // Another exported VAR is bound to it.
    let c = exported_var(&mut state, 1, 8, 0);
    bound_to_a_value(&mut state, Call::Bind { w: 1, c, x: 1 }, 5, 8);
}

/// Reads that wait for an exported VAR are answered with the value it was bound
/// to.
#[test]
fn reads_that_wait_are_answered_after_a_bind_to_a_known_ex() {
    for n in [0, 5, 4_294_967_295] {
        // VAR 1 of worker 0 is cell 1 of worker 1 and cell 0 of worker 2.
        let mut state = known_from(1, 0, n);
        assert_eq!(exported_var(&mut state, 0, 8, 1), 1);
        assert_eq!(sent_and_delivered(&mut state, Call::Export { w: 0, c: 1, to: 2 }), 0);
        assert_eq!(state.call(Call::Read { w: 1, c: 1 }), Ok(Answer::Sent(0)));
        assert_eq!(state.call(Call::Read { w: 2, c: 0 }), Ok(Answer::Sent(1)));
        for s in [0, 1] {
            assert_eq!(refused(&mut state, Call::Deliver { s }), Refusal::NotReady);
        }
        // Two Reads and two live entries: E + 1 each.
        assert_eq!(state.call(Call::Bound), done(6));

        bound_to_a_value(&mut state, Call::Bind { w: 0, c: 1, x: 0 }, n, 8);
        assert_eq!(state.call(Call::Bound), done(6));
        for (s, reader, cell) in [(1, 2, 0), (0, 1, 1)] {
            assert_eq!(state.call(Call::Deliver { s }), done(0));
            assert_eq!(state.slots[usize::from(s)], Some(Message::Answer { reader, cell, n }));
            assert_eq!(state.call(Call::Deliver { s }), done(u32::from(cell)));
            assert_eq!(state.call(Call::Read { w: reader, c: cell }), done(n));
        }
        assert_eq!(state.call(Call::Bound), done(0));
    }
}

/// "and names no EX": the EX can go, and the VAL stays.
#[test]
fn a_bind_to_a_known_ex_does_not_make_it_busy() {
    let mut state = known_from(1, 0, 5);
    let alone = value(&mut state, Call::New { w: 0, caller: 8 });
    let exported = exported_var(&mut state, 0, 9, 2);
    bound_to_a_value(&mut state, Call::Bind { w: 0, c: alone, x: 0 }, 5, 8);
    bound_to_a_value(&mut state, Call::Bind { w: 0, c: exported, x: 0 }, 5, 9);
    assert!(!state.busy(0, 0));
    let transfer = |to| Call::Transfer { w: 0, c: 0, to };
    for (call, delivered, entry_is_live) in [
        (Call::Drop { w: 0, c: 0 }, 0, false),
        (transfer(1), 0, false),
        // Cell 0 of worker 2 is the EX of the exported cell.
        (transfer(2), 1, true),
    ] {
        let mut state = state.clone();
        assert_eq!(sent_and_delivered(&mut state, call), delivered, "{call}");
        assert_eq!(state.cell(0, 0), Cell::Free, "{call}");
        assert_eq!(state.entry(1, 0).is_some(), entry_is_live, "{call}");
        assert_eq!(state.cell(0, alone), Cell::Val { n: 5, caller: 8 }, "{call}");
        assert_eq!(state.cell(0, exported), Cell::Val { n: 5, caller: 9 }, "{call}");
    }
}

/// An EX that is busy with something else stays so: with a REF from before, or
/// asking.
#[test]
fn a_bind_to_a_known_ex_leaves_it_as_busy_as_it_was() {
    let mut state = imported_from(1, 0);
    let to_the_ex = ref_to_the_ex(&mut state, 0);
    set_and_answered(&mut state, 1, 0, 5);
    let c = exported_var(&mut state, 0, 8, 1);
    assert_eq!(state.call(Call::Ask { w: 0, c: 0 }), Ok(Answer::Sent(0)));
    bound_to_a_value(&mut state, Call::Bind { w: 0, c, x: 0 }, 5, 8);

    let drop_the_ex = Call::Drop { w: 0, c: 0 };
    assert_eq!(refused(&mut state, drop_the_ex), Refusal::Busy);
    assert_eq!(state.call(Call::Drop { w: 0, c: to_the_ex }), done(64));
    assert_eq!(refused(&mut state, drop_the_ex), Refusal::Busy);
    assert_eq!(state.call(Call::Deliver { s: 0 }), done(0));
    assert_eq!(state.call(Call::Deliver { s: 0 }), done(0));
    assert_eq!(state.call(drop_the_ex), done(0));
}

/// To every call the cell is a VAL.
#[test]
fn what_was_bound_to_a_known_ex_is_a_val_from_then_on() {
    let mut state = known_from(1, 0, 5);
    let c = value(&mut state, Call::New { w: 0, caller: 8 });
    let other = value(&mut state, Call::New { w: 0, caller: 9 });
    bound_to_a_value(&mut state, Call::Bind { w: 0, c, x: 0 }, 5, 8);
    for call in [
        Call::Set { w: 0, c, n: 6 },
        Call::Bind { w: 0, c, x: 0 },
        Call::Bind { w: 0, c: other, x: c },
        Call::Indirect { w: 0, c, to: 1 },
        Call::Transfer { w: 0, c, to: 1 },
        Call::Ask { w: 0, c },
    ] {
        assert_eq!(refused(&mut state, call), Refusal::WrongKind, "{call}");
    }
    // By location: the weight of the EX is not touched.
    assert_eq!(state.call(Call::Export { w: 0, c, to: 2 }), done(0));
    let reference = Message::Reference { to: 2, owner: 0, entry: 0, weight: 1_024 };
    assert_eq!(state.slots[0], Some(reference));
    assert_eq!(state.entry(0, 0), Some(Entry { cell: c, weight: 1_024, tainted: false }));
    assert_eq!(ex(&state, 0, 0).weight, 1_024);
}

/// The refusals before 8 are as they were.
#[test]
fn a_known_ex_does_not_change_the_other_refusals_of_bind() {
    let mut state = imported_from(1, 0);
    let to_the_ex = ref_to_the_ex(&mut state, 0);
    set_and_answered(&mut state, 1, 0, 5);
    let var = exported_var(&mut state, 0, 8, 1);
    let val = value(&mut state, Call::New { w: 0, caller: 9 });
    value(&mut state, Call::Set { w: 0, c: val, n: 6 });
    let bind = |w, c, x| Call::Bind { w, c, x };

    for w in [3, 8, 255] {
        assert_eq!(refused(&mut state, bind(w, var, 0)), Refusal::NoSuchWorker);
    }
    for none in [31, 32, 255] {
        assert_eq!(refused(&mut state, bind(0, none, 0)), Refusal::NoSuchCell);
        assert_eq!(refused(&mut state, bind(0, var, none)), Refusal::NoSuchCell);
        assert_eq!(refused(&mut state, bind(0, val, none)), Refusal::NoSuchCell);
    }
    for c in [0, to_the_ex, val] {
        assert_eq!(refused(&mut state, bind(0, c, 0)), Refusal::WrongKind);
        assert_eq!(refused(&mut state, bind(0, c, to_the_ex)), Refusal::WrongKind);
    }
    for x in [var, val] {
        assert_eq!(refused(&mut state, bind(0, var, x)), Refusal::WrongKind);
    }
    let mut unsound = state.clone();
    unsound.entries[1][0] = None;
    assert_eq!(refused(&mut unsound, bind(0, var, 0)), Refusal::NotSound);
    bound_to_a_value(&mut state, bind(0, var, 0), 5, 8);
}

/// Frames of bind while the EX is idle, reading and known, with a Read that
/// waits for the variable, and the EX dropped before that is answered.
#[test]
fn a_bind_to_a_known_ex_in_a_text() {
    let run = "\
0102000000000000  0000000000
0201000000000007  0000000000
0501000000000000  0000000000
0b00000000000000  0000000000
0200000000000008  0000000001
0500010100000000  0000000000
0b00000000000000  0000000001
0901010000000000  4000000000
0b00000000000000  0f00000000
0400010000000000  0800000000
0900000000000000  4000000001
0400010000000000  0800000000
03010000ffffffff  0000000000
0b01000000000000  0000000000
0400010000000000  0800000000
0b01000000000000  0000000000
0400010000000000  0000000000
0900010000000000  00ffffffff
0400010000000000  0600000000
0a00010000000000  0600000000
0800000000000000  0000000001
0b01000000000000  0000000000
0801000000000000  0000000040
0b00000000000000  0000000000
0b00000000000000  0000000001
0901010000000000  00ffffffff
0c00000000000000  0000000000
";
    let (input, output) = columns(run);
    assert_eq!(String::from_utf8(run_text(input.as_bytes())), Ok(output));
}

// ------------------------------------------------------------------ soundness

/// A sound state with one of everything, and states that each break a point.
#[test]
fn the_six_points() {
    let mut sound = imported(3);
    value(&mut sound, Call::New { w: 1, caller: 0 });
    value(&mut sound, Call::Bind { w: 1, c: 1, x: 0 });
    sent_and_delivered(&mut sound, Call::Indirect { w: 1, c: 0, to: 2 });
    value(&mut sound, Call::New { w: 0, caller: 0 });
    value(&mut sound, Call::Export { w: 0, c: 1, to: 2 });
    value(&mut sound, Call::Read { w: 1, c: 0 });
    value(&mut sound, Call::Ask { w: 2, c: 0 });
    assert_eq!(sound.first_broken_point(), 0);
    let at_1 = ex(&sound, 1, 0);
    let at_2 = ex(&sound, 2, 0);
    let entry = sound.entry(0, 0).expect("live");

    let broken = |point: u8, break_it: &dyn Fn(&mut State)| {
        let mut state = sound.clone();
        break_it(&mut state);
        assert_eq!(state.first_broken_point(), point);
        for call in [
            Call::New { w: 0, caller: 0 },
            Call::New { w: 0, caller: 256 },
            Call::New { w: 9, caller: 256 },
            Call::Set { w: 0, c: 0, n: 1 },
            Call::Bind { w: 9, c: 0, x: 0 },
            Call::Export { w: 0, c: 0, to: 0 },
            Call::Indirect { w: 0, c: 99, to: 1 },
            Call::Transfer { w: 1, c: 0, to: 1 },
            Call::Drop { w: 0, c: 0 },
            Call::Read { w: 0, c: 0 },
            Call::Ask { w: 0, c: 0 },
            Call::Deliver { s: 99 },
            Call::Bound,
        ] {
            assert_eq!(refused(&mut state, call), Refusal::NotSound);
        }
        assert_eq!(state.call(Call::Start { p: 2 }), done(0));
        assert_eq!(state, started(2));
    };

    // 1: numbers.
    broken(1, &|state| state.workers = 9);
    broken(1, &|state| state.workers = 2);
    broken(1, &|state| state.cells[3][0] = var(0));
    broken(1, &|state| state.entries[3][0] = Some(entry));
    broken(1, &|state| state.cells[1][1] = Cell::Ref(32));
    broken(1, &|state| state.cells[1][0] = Cell::Ex(Ex { owner: 3, ..at_1 }));
    broken(1, &|state| state.cells[1][0] = Cell::Ex(Ex { entry: 16, ..at_1 }));
    broken(1, &|state| state.cells[1][0] = Cell::Ex(Ex { weight: CEILING + 1, ..at_1 }));
    broken(1, &|state| state.entries[0][0] = Some(Entry { cell: 32, ..entry }));
    broken(1, &|state| state.entries[0][0] = Some(Entry { weight: 0, ..entry }));
    broken(1, &|state| state.entries[0][0] = Some(Entry { weight: CEILING + 1, ..entry }));
    for message in [
        Message::Reference { to: 3, owner: 0, entry: 0, weight: 1 },
        Message::Reference { to: 1, owner: 3, entry: 0, weight: 1 },
        Message::Reference { to: 1, owner: 0, entry: 16, weight: 1 },
        Message::Reference { to: 1, owner: 0, entry: 0, weight: CEILING + 1 },
        Message::Release { owner: 3, entry: 0, weight: 1 },
        Message::Release { owner: 0, entry: 16, weight: 1 },
        Message::Release { owner: 0, entry: 0, weight: CEILING + 1 },
        Message::Read { reader: 3, cell: 0, owner: 0, entry: 0 },
        Message::Read { reader: 1, cell: 32, owner: 0, entry: 0 },
        Message::Read { reader: 1, cell: 0, owner: 3, entry: 0 },
        Message::Read { reader: 1, cell: 0, owner: 0, entry: 16 },
        Message::Answer { reader: 3, cell: 0, n: 0 },
        Message::Answer { reader: 1, cell: 32, n: 0 },
        Message::Ask { asker: 3, cell: 0, owner: 0, entry: 0 },
        Message::Ask { asker: 1, cell: 32, owner: 0, entry: 0 },
        Message::Ask { asker: 1, cell: 0, owner: 3, entry: 0 },
        Message::Ask { asker: 1, cell: 0, owner: 0, entry: 16 },
        Message::Supply { asker: 3, cell: 0, weight: 0 },
        Message::Supply { asker: 1, cell: 32, weight: 0 },
        Message::Supply { asker: 1, cell: 0, weight: CEILING + 1 },
    ] {
        broken(1, &|state| state.slots[9] = Some(message));
    }

    // 2: REF and EX.
    broken(2, &|state| state.cells[1][1] = Cell::Ref(2));
    broken(2, &|state| state.cells[1][2] = Cell::Ref(1));
    broken(2, &|state| state.cells[1][0] = Cell::Ex(Ex { owner: 1, ..at_1 }));
    broken(2, &|state| state.cells[1][0] = Cell::Ex(Ex { entry: 15, ..at_1 }));
    broken(2, &|state| state.cells[1][0] = Cell::Ex(Ex { weight: 0, ..at_1 }));
    broken(2, &|state| state.cells[1][2] = Cell::Ex(at_1));

    // 3: entries.
    broken(3, &|state| state.cells[0][0] = Cell::Free);
    broken(3, &|state| state.entries[0][2] = Some(entry));
    broken(3, &|state| state.entries[0][0] = Some(Entry { tainted: true, ..entry }));

    // 4: messages.
    broken(4, &|state| state.slots[1] = None);
    broken(4, &|state| state.slots[2] = None);
    broken(4, &|state| state.slots[9] = state.slots[1]);
    broken(4, &|state| state.slots[9] = Some(Message::Answer { reader: 1, cell: 0, n: 0 }));
    broken(4, &|state| state.slots[9] = Some(Message::Supply { asker: 2, cell: 0, weight: 0 }));
    broken(4, &|state| state.cells[1][0] = Cell::Ex(Ex { value: Value::Known(1), ..at_1 }));
    broken(4, &|state| state.cells[2][0] = Cell::Ex(Ex { asking: false, ..at_2 }));
    for message in [
        Message::Reference { to: 1, owner: 0, entry: 0, weight: 0 },
        Message::Reference { to: 1, owner: 0, entry: 5, weight: 1 },
        Message::Release { owner: 0, entry: 0, weight: 0 },
        Message::Release { owner: 0, entry: 5, weight: 1 },
        Message::Answer { reader: 0, cell: 0, n: 0 },
        Message::Supply { asker: 0, cell: 9, weight: 0 },
    ] {
        broken(4, &|state| state.slots[9] = Some(message));
    }
    let read = |owner, entry| Some(Message::Read { reader: 1, cell: 0, owner, entry });
    let ask = |owner, entry| Some(Message::Ask { asker: 2, cell: 0, owner, entry });
    broken(4, &|state| state.slots[1] = read(0, 1));
    broken(4, &|state| state.slots[1] = read(1, 0));
    broken(4, &|state| state.slots[1] = read(1, 7));
    broken(4, &|state| state.slots[2] = ask(0, 0));
    broken(4, &|state| state.slots[2] = ask(0, 9));

    // 5: weights.
    broken(5, &|state| state.entries[0][0] = Some(Entry { weight: 1, ..entry }));
    broken(5, &|state| state.cells[1][0] = Cell::Ex(Ex { weight: 1, ..at_1 }));
    broken(5, &|state| state.slots[0] = None);
    broken(5, &|state| {
        state.slots[2] = Some(Message::Supply { asker: 2, cell: 0, weight: 1 });
    });

    // 6: bookings.
    broken(6, &|state| state.cells[2][1..].fill(var(0)));
}

/// A reader far along a chain: an entry reached by following is right, one that
/// is not on the way is not.
#[test]
fn a_read_names_an_entry_on_the_way() {
    let mut state = imported(3);
    sent_and_delivered(&mut state, Call::Indirect { w: 1, c: 0, to: 2 });
    value(&mut state, Call::New { w: 0, caller: 0 });
    value(&mut state, Call::Export { w: 0, c: 1, to: 1 });
    let s = usize::from(value(&mut state, Call::Read { w: 2, c: 0 }));
    let read = |owner, entry| Some(Message::Read { reader: 2, cell: 0, owner, entry });
    assert_eq!(state.slots[s], read(1, 0));
    assert_eq!(state.first_broken_point(), 0);
    state.slots[s] = read(0, 0);
    assert_eq!(state.first_broken_point(), 0);
    state.slots[s] = read(0, 1);
    assert_eq!(state.first_broken_point(), 4);
}
