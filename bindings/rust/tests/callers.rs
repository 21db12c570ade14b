//! What becomes of callers, also where a bind to a known EX keeps one, state by
//! state: the model must write what the library's test program `caller_cases`
//! writes, each frame with its answer and after it every cell that is not free.

use endrusp::model::{self, Cell, Entry, Ex, Message, State, Value};
use std::fmt::Write;

/// What the program writes, by the file that it is held to.
const WRITTEN: &str = include_str!("../../../crates/caller_cases/stdout");

fn entry(cell: u8, weight: u32) -> Option<Entry> {
    Some(Entry { cell, weight, tainted: false })
}

fn ex(owner: u8, entry: u8, weight: u32, value: Value) -> Cell {
    Cell::Ex(Ex { owner, entry, weight, value, asking: false })
}

/// A state of two workers that the program makes by hand.
fn made(name: &str) -> State {
    let mut state = State { workers: 2, ..State::closed() };
    match name {
        "waiting" => {
            state.cells[0][0] = Cell::Var { caller: 255 };
            state.cells[0][1] = Cell::Val { n: 7, caller: 17 };
            state.cells[0][2] = Cell::Var { caller: 1 };
            state.cells[1][0] = ex(0, 0, 1_024, Value::Reading);
            state.cells[1][1] = ex(0, 1, 5, Value::Idle);
            state.cells[1][2] = Cell::Var { caller: 2 };
            state.entries[0][0] = entry(0, 1_024);
            state.entries[0][1] = entry(1, 5);
            state.slots[0] = Some(Message::Read { reader: 1, cell: 0, owner: 0, entry: 0 });
        }
        "crowded" => {
            state.cells[0][0] = Cell::Var { caller: 255 };
            for c in 0..31 {
                state.cells[1][usize::from(c)] = Cell::Var { caller: c };
            }
            state.entries[0][0] = entry(0, 1_024);
            state.slots[0] = Some(Message::Reference { to: 1, owner: 0, entry: 0, weight: 1_024 });
        }
        "knowing" => {
            state.cells[0][0] = Cell::Val { n: 6, caller: 3 };
            state.cells[0][1] = ex(1, 0, 7, Value::Idle);
            state.cells[1][0] = ex(0, 0, 5, Value::Known(0));
            state.cells[1][1] = Cell::Var { caller: 255 };
            state.cells[1][2] = Cell::Ref(0);
            state.entries[0][0] = entry(0, 5);
            state.entries[1][0] = entry(1, 7);
        }
        "unsound" => {
            state.cells[0][0] = Cell::Var { caller: 4 };
            state.entries[0][0] = entry(0, 1);
        }
        _ => panic!("{name} is neither a frame nor a state"),
    }
    state
}

/// Every cell that is not free, a line each.
fn cells(state: &State) -> String {
    let mut lines = String::new();
    for (w, row) in state.cells.iter().enumerate() {
        for (c, cell) in row.iter().enumerate() {
            let what = match *cell {
                Cell::Free => continue,
                Cell::Var { caller } => format!("VAR {caller:02x}"),
                Cell::Val { n, caller } => format!("VAL {n:08x} {caller:02x}"),
                Cell::Ref(named) => format!("REF {named:02x}"),
                Cell::Ex(ex) => format!("EX {:02x} {:02x}", ex.owner, ex.entry),
            };
            writeln!(lines, "{w:02x}{c:02x} {what}").expect("a string has room");
        }
    }
    lines
}

/// The first word of a line that is a call or the name of a state; a line of a
/// cell begins with its four digits.
fn call_or_state(line: &str) -> Option<&str> {
    let first = line.split(' ').next()?;
    (first.len() != 4).then_some(first)
}

#[test]
fn the_model_writes_what_caller_cases_writes() {
    let mut state = State::closed();
    let mut written = String::new();
    let mut calls = 0;
    for word in WRITTEN.lines().filter_map(call_or_state) {
        if let Some(call) = model::decode(word.as_bytes()) {
            let (code, value) = model::code_and_value(Some(state.call(call)));
            writeln!(written, "{word} {code:02x}{value:08x}").expect("a string has room");
            calls += 1;
        } else {
            state = made(word);
            writeln!(written, "{word}").expect("a string has room");
        }
        written += &cells(&state);
    }
    assert_eq!(written, WRITTEN);
    assert_eq!(calls, 87);
}
