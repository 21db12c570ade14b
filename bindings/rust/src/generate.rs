//! Inputs for the differential test and the benchmark, made from a seed.
//!
//! A [`Generator`] drives the model beside the text it writes, so that it knows
//! what is live and can choose arguments that mostly do something. Bad lines,
//! numbers at the edges and starts in the middle are mixed in.

use crate::model::{
    self, Answer, CEILING, CELLS, Call, Cell, Ex, GAIN, LONGEST_INPUT, Message, Outcome, Refusal,
    SLOTS, State, Value,
};
use std::collections::BTreeMap;

// ------------------------------------------------------------ random numbers

/// A small generator of random numbers (SplitMix64).
#[derive(Clone, Debug)]
pub struct Random {
    state: u64,
}

impl Random {
    /// A generator that begins at a seed.
    pub fn new(seed: u64) -> Random {
        Random { state: seed }
    }

    /// The next number of 64 bits.
    pub fn number(&mut self) -> u64 {
        self.state = self.state.wrapping_add(0x9e37_79b9_7f4a_7c15);
        let mut z = self.state;
        z = (z ^ (z >> 30)).wrapping_mul(0xbf58_476d_1ce4_e5b9);
        z = (z ^ (z >> 27)).wrapping_mul(0x94d0_49bb_1331_11eb);
        z ^ (z >> 31)
    }

    /// A number below another one, which is not 0.
    pub fn below(&mut self, end: usize) -> usize {
        (self.number() % end as u64) as usize
    }

    /// True in so many of a hundred.
    pub fn percent(&mut self, hits: usize) -> bool {
        self.below(100) < hits
    }

    /// One of a list that is not empty.
    pub fn one_of<T: Copy>(&mut self, list: &[T]) -> T {
        list[self.below(list.len())]
    }

    fn byte(&mut self) -> u8 {
        self.number() as u8
    }
}

// ----------------------------------------------------------------- coverage

/// The row of lines that are not frames in [`POSSIBLE`].
pub const NOT_A_FRAME: &str = "not a frame";

/// Each call, by its name, with every code that it can answer in a state
/// reached from a start. Code 02, a state that is not sound, is missing
/// everywhere: no such state is reached from a start.
pub const POSSIBLE: [(&str, &[u8]); 13] = [
    ("start", &[0x00, 1]),
    ("new", &[0x00, 3, 12, 16]),
    ("set", &[0x00, 3, 5, 6]),
    ("bind", &[0x00, 3, 5, 6, 8]),
    ("export", &[0x00, 3, 4, 5, 9, 10, 11, 12, 13]),
    ("indirect", &[0x00, 3, 4, 5, 6, 10, 11, 12, 13]),
    ("transfer", &[0x00, 3, 4, 5, 6, 7, 12, 13]),
    ("drop", &[0x00, 3, 5, 7, 13]),
    ("read", &[0x00, 3, 5, 13, 0x40, 0x41, 0x42]),
    ("ask", &[3, 5, 6, 13, 0x40, 0x41]),
    ("deliver", &[0x00, 14, 15]),
    ("bound", &[0x00]),
    (NOT_A_FRAME, &[0xff]),
];

/// What can happen in a call that is not refused, by the branch of the rule.
pub const EVENTS: [&str; 43] = [
    "new with caller 0",
    "new with caller 255",
    "new with another caller",
    "export by location, new entry",
    "export by location, its entry",
    "export by reference",
    "export by reference through a REF",
    "indirect, new entry untainted",
    "indirect, new entry tainted",
    "indirect, its entry",
    "bind to an EX not known, of a cell with a live entry",
    "bind to an EX not known, of a cell without an entry",
    "bind to a REF's end, not known, of a cell without an entry",
    "bind to a known EX, unsafe, of a cell with a live entry",
    "bind to a known EX, safe, of a cell with a live entry",
    "bind to a known EX, of a cell without an entry",
    "bind to a REF's end, known, unsafe, of a cell with a live entry",
    "bind to a REF's end, known, safe, of a cell with a live entry",
    "bind to a REF's end, known, of a cell without an entry",
    "transfer home",
    "transfer elsewhere",
    "drop of a VAR",
    "drop of a VAL",
    "drop of a REF",
    "drop of an EX",
    "read of a VAL",
    "read of a known EX",
    "read through a REF",
    "deliver Reference home, entry kept",
    "deliver Reference home, entry freed",
    "deliver Reference, joins an EX",
    "deliver Reference, makes an EX",
    "deliver Release, entry kept",
    "deliver Release, entry freed",
    "deliver Read, answered by a VAL",
    "deliver Read, answered by a known EX",
    "deliver Read, goes on",
    "deliver Answer",
    "deliver Ask, gains 1,024",
    "deliver Ask, gains less",
    "deliver Ask, gains 0",
    "deliver Supply of 1 or more",
    "deliver Supply of 0",
];

/// What was met in the lines generated so far.
#[derive(Clone, Debug, Default)]
pub struct Coverage {
    /// How often each call answered each code.
    pub codes: BTreeMap<(&'static str, u8), u64>,
    /// How often each of [`EVENTS`] happened.
    pub events: BTreeMap<&'static str, u64>,
    /// Inputs longer than 65,536 bytes.
    pub too_long: u64,
}

impl Coverage {
    /// Adds what another one met.
    pub fn add(&mut self, other: &Coverage) {
        for (key, count) in &other.codes {
            *self.codes.entry(*key).or_default() += count;
        }
        for (event, count) in &other.events {
            *self.events.entry(event).or_default() += count;
        }
        self.too_long += other.too_long;
    }

    /// How often a call answered a code.
    pub fn count(&self, call: &'static str, code: u8) -> u64 {
        self.codes.get(&(call, code)).copied().unwrap_or(0)
    }

    /// What of [`POSSIBLE`] and [`EVENTS`] was not met, and what was met that
    /// is not among it.
    pub fn gaps(&self) -> Vec<String> {
        let mut gaps = Vec::new();
        for (call, codes) in POSSIBLE {
            for code in codes.iter().filter(|code| self.count(call, **code) == 0) {
                gaps.push(format!("{call} never answered {code:02x}"));
            }
        }
        for event in EVENTS.iter().filter(|event| !self.events.contains_key(*event)) {
            gaps.push(format!("never: {event}"));
        }
        if self.too_long == 0 {
            gaps.push("no input was too long".to_string());
        }
        for (call, code) in self.codes.keys() {
            let possible =
                POSSIBLE.iter().any(|(name, codes)| name == call && codes.contains(code));
            if !possible {
                gaps.push(format!("{call} answered {code:02x}, which is not expected"));
            }
        }
        for event in self.events.keys().filter(|event| !EVENTS.contains(event)) {
            gaps.push(format!("not in the list: {event}"));
        }
        gaps
    }
}

fn name(call: Call) -> &'static str {
    match call {
        Call::Start { .. } => "start",
        Call::New { .. } => "new",
        Call::Set { .. } => "set",
        Call::Bind { .. } => "bind",
        Call::Export { .. } => "export",
        Call::Indirect { .. } => "indirect",
        Call::Transfer { .. } => "transfer",
        Call::Drop { .. } => "drop",
        Call::Read { .. } => "read",
        Call::Ask { .. } => "ask",
        Call::Deliver { .. } => "deliver",
        Call::Bound => "bound",
    }
}

/// Which branch of its rule a call takes, in the state before it, if it is not
/// refused. The arguments may be anything.
fn event(state: &State, call: Call) -> Option<&'static str> {
    let live = |w: u8, c: u8| {
        let there = w < state.workers && usize::from(c) < CELLS;
        there.then(|| state.cell(w, c))
    };
    Some(match call {
        Call::New { caller: 0, .. } => "new with caller 0",
        Call::New { caller: 255, .. } => "new with caller 255",
        Call::New { .. } => "new with another caller",
        Call::Bind { w, c, x } => {
            live(w, c)?;
            let through_ref = matches!(live(w, x)?, Cell::Ref(_));
            let exported = state.entry_naming(w, c).is_some();
            match state.end_cell(w, x) {
                Cell::Ex(ex @ Ex { value: Value::Known(_), .. }) => {
                    event_of_bind_to_known(exported, state.safe(w, ex), through_ref)
                }
                _ if exported => "bind to an EX not known, of a cell with a live entry",
                _ if through_ref => "bind to a REF's end, not known, of a cell without an entry",
                _ => "bind to an EX not known, of a cell without an entry",
            }
        }
        Call::Export { w, c, .. } => match (live(w, c)?, state.entry_naming(w, c)) {
            (Cell::Ex(_), _) => "export by reference",
            (Cell::Ref(_), _) => "export by reference through a REF",
            (_, Some(_)) => "export by location, its entry",
            (_, None) => "export by location, new entry",
        },
        Call::Indirect { w, c, .. } => {
            live(w, c)?;
            let Cell::Ex(ex) = state.end_cell(w, c) else {
                return None;
            };
            if state.entry_naming(w, state.end(w, c)).is_some() {
                "indirect, its entry"
            } else if state.safe(w, ex) {
                "indirect, new entry untainted"
            } else {
                "indirect, new entry tainted"
            }
        }
        Call::Transfer { w, c, to } => match live(w, c)? {
            Cell::Ex(ex) if ex.owner == to => "transfer home",
            _ => "transfer elsewhere",
        },
        Call::Drop { w, c } => match live(w, c)? {
            Cell::Free => return None,
            Cell::Var { .. } => "drop of a VAR",
            Cell::Val { .. } => "drop of a VAL",
            Cell::Ref(_) => "drop of a REF",
            Cell::Ex(_) => "drop of an EX",
        },
        Call::Read { w, c } => match live(w, c)? {
            Cell::Val { .. } => "read of a VAL",
            Cell::Ref(_) => "read through a REF",
            Cell::Ex(Ex { value: Value::Known(_), .. }) => "read of a known EX",
            _ => return None,
        },
        Call::Deliver { s } => event_of_message(state, state.slots.get(usize::from(s))?.as_ref()?)?,
        Call::Start { .. } | Call::Set { .. } | Call::Ask { .. } | Call::Bound => return None,
    })
}

/// Which bind to a known EX it is: whether the VAR has a live entry, whether the
/// EX is safe, and whether it is a REF's end.
fn event_of_bind_to_known(exported: bool, safe: bool, through_ref: bool) -> &'static str {
    match (exported, safe, through_ref) {
        (true, false, false) => "bind to a known EX, unsafe, of a cell with a live entry",
        (true, true, false) => "bind to a known EX, safe, of a cell with a live entry",
        (false, _, false) => "bind to a known EX, of a cell without an entry",
        (true, false, true) => "bind to a REF's end, known, unsafe, of a cell with a live entry",
        (true, true, true) => "bind to a REF's end, known, safe, of a cell with a live entry",
        (false, _, true) => "bind to a REF's end, known, of a cell without an entry",
    }
}

fn event_of_message(state: &State, message: &Message) -> Option<&'static str> {
    let entry_weight = |owner, entry| state.entry(owner, entry).map_or(0, |held| held.weight);
    Some(match *message {
        Message::Reference { to, owner, entry, weight } => {
            let named = (owner, entry);
            let names_it =
                |cell: &Cell| matches!(cell, Cell::Ex(ex) if (ex.owner, ex.entry) == named);
            if to == owner && entry_weight(owner, entry) == weight {
                "deliver Reference home, entry freed"
            } else if to == owner {
                "deliver Reference home, entry kept"
            } else if state.cells[usize::from(to)].iter().any(names_it) {
                "deliver Reference, joins an EX"
            } else {
                "deliver Reference, makes an EX"
            }
        }
        Message::Release { owner, entry, weight } if entry_weight(owner, entry) == weight => {
            "deliver Release, entry freed"
        }
        Message::Release { .. } => "deliver Release, entry kept",
        Message::Read { owner, entry, .. } => {
            match state.end_cell(owner, state.entry(owner, entry)?.cell) {
                Cell::Val { .. } => "deliver Read, answered by a VAL",
                Cell::Ex(Ex { value: Value::Known(_), .. }) => {
                    "deliver Read, answered by a known EX"
                }
                Cell::Ex(_) => "deliver Read, goes on",
                _ => return None,
            }
        }
        Message::Answer { .. } => "deliver Answer",
        Message::Ask { owner, entry, .. } => match CEILING - entry_weight(owner, entry) {
            0 => "deliver Ask, gains 0",
            left if left < GAIN => "deliver Ask, gains less",
            _ => "deliver Ask, gains 1,024",
        },
        Message::Supply { weight: 0, .. } => "deliver Supply of 0",
        Message::Supply { .. } => "deliver Supply of 1 or more",
    })
}

// ---------------------------------------------------------------- the mixes

/// What a step may do.
#[derive(Clone, Copy, Debug)]
enum Step {
    New,
    Set,
    Bind,
    /// A bind to an EX that is known.
    BindToKnown,
    Export,
    Indirect,
    Transfer,
    Drop,
    Read,
    Ask,
    Deliver,
    Bound,
    /// A call with numbers at the edges.
    Edge,
    /// A line that is not a frame.
    BadLine,
    /// A start in the middle, perhaps a refused one.
    Start,
}

/// Steps, each with its share.
type Mix = &'static [(Step, usize)];

const GROW: Mix = &[
    (Step::New, 22),
    (Step::Set, 4),
    (Step::Bind, 6),
    (Step::Export, 24),
    (Step::Indirect, 8),
    (Step::Read, 5),
    (Step::Ask, 3),
    (Step::Deliver, 26),
    (Step::Edge, 1),
    (Step::BadLine, 1),
    (Step::BindToKnown, 2),
];

const CHURN: Mix = &[
    (Step::New, 8),
    (Step::Set, 4),
    (Step::Bind, 8),
    (Step::Export, 12),
    (Step::Indirect, 7),
    (Step::Transfer, 7),
    (Step::Drop, 9),
    (Step::Read, 12),
    (Step::Ask, 7),
    (Step::Deliver, 30),
    (Step::Bound, 2),
    (Step::Edge, 2),
    (Step::BadLine, 1),
    (Step::BindToKnown, 4),
];

const SEND: Mix = &[
    (Step::New, 2),
    (Step::Export, 25),
    (Step::Indirect, 10),
    (Step::Transfer, 8),
    (Step::Drop, 8),
    (Step::Read, 20),
    (Step::Ask, 20),
    (Step::Deliver, 2),
    (Step::Bound, 2),
    (Step::Edge, 1),
];

const READ: Mix = &[
    (Step::Set, 5),
    (Step::Bind, 5),
    (Step::BindToKnown, 5),
    (Step::Read, 35),
    (Step::Ask, 3),
    (Step::Deliver, 45),
    (Step::Bound, 5),
    (Step::Drop, 2),
];

const SHRINK: Mix = &[
    (Step::Drop, 35),
    (Step::Transfer, 8),
    (Step::Set, 2),
    (Step::Deliver, 45),
    (Step::Read, 5),
    (Step::Bound, 3),
    (Step::Edge, 2),
];

const HOSTILE: Mix = &[
    (Step::Edge, 35),
    (Step::BadLine, 25),
    (Step::Start, 1),
    (Step::New, 8),
    (Step::Export, 10),
    (Step::Read, 4),
    (Step::Ask, 3),
    (Step::Deliver, 12),
    (Step::Bound, 2),
];

// ------------------------------------------------------------ the generator

/// Writes an input line by line and runs the model beside it.
pub struct Generator {
    random: Random,
    state: State,
    text: Vec<u8>,
    limit: usize,
    coverage: Coverage,
}

impl Generator {
    /// A generator of an input of at most `limit` bytes.
    pub fn new(seed: u64, limit: usize) -> Generator {
        Generator {
            random: Random::new(seed),
            state: State::closed(),
            text: Vec::new(),
            limit: limit.min(LONGEST_INPUT),
            coverage: Coverage::default(),
        }
    }

    /// Whether one more frame would not fit.
    pub fn full(&self) -> bool {
        self.text.len() + 17 > self.limit
    }

    /// The state that the lines so far lead to.
    pub fn state(&self) -> &State {
        &self.state
    }

    /// The input written, and what it met.
    pub fn finish(self) -> (Vec<u8>, Coverage) {
        (self.text, self.coverage)
    }

    /// Writes a line and runs it. A line that does not fit is left out.
    fn line(&mut self, line: &[u8]) -> Option<Outcome> {
        if self.text.len() + line.len() + 1 > self.limit {
            return None;
        }
        self.text.extend_from_slice(line);
        self.text.push(b'\n');
        let call = model::decode(line);
        let expected = call.and_then(|call| event(&self.state, call));
        let outcome = call.map(|call| self.state.call_with::<false>(call));
        let (code, _) = model::code_and_value(outcome);
        let row = call.map_or(NOT_A_FRAME, name);
        *self.coverage.codes.entry((row, code)).or_default() += 1;
        if let (Some(event), Some(Ok(_))) = (expected, outcome) {
            *self.coverage.events.entry(event).or_default() += 1;
        }
        outcome
    }

    /// Writes the frame of a call and runs it.
    pub fn call(&mut self, call: Call) -> Option<Outcome> {
        self.line(&model::encode(call))
    }

    /// The value, as a cell or slot, of a call that is done.
    fn done(&mut self, call: Call) -> Option<u8> {
        match self.call(call) {
            Some(Ok(Answer::Done(value) | Answer::Sent(value))) => Some(value as u8),
            _ => None,
        }
    }

    /// A new VAR of a worker, with a caller of 0 to 255. Its cell.
    fn new_cell(&mut self, w: u8) -> Option<u8> {
        let caller = self.caller(0);
        self.done(Call::New { w, caller })
    }

    /// Exports, by location or indirectly, and delivers. The receiver's cell.
    fn hand_over(&mut self, call: Call) -> Option<u8> {
        let s = self.done(call)?;
        self.done(Call::Deliver { s })
    }

    // ------------------------------------------------------------- choosing

    fn worker(&mut self) -> u8 {
        self.random.below(usize::from(self.state.workers).max(1)) as u8
    }

    fn other_worker(&mut self, w: u8) -> u8 {
        let p = self.state.workers;
        if p < 2 {
            return self.random.below(8) as u8;
        }
        (w + 1 + self.random.below(usize::from(p) - 1) as u8) % p
    }

    /// A live cell that is as wanted, by chance, with its worker.
    fn cell(&mut self, wanted: impl Fn(&State, u8, u8) -> bool) -> Option<(u8, u8)> {
        let state = &self.state;
        let workers = 0..state.workers;
        let cells = workers.flat_map(|w| (0..CELLS as u8).map(move |c| (w, c)));
        let matching: Vec<(u8, u8)> = cells
            .filter(|(w, c)| state.cell(*w, *c) != Cell::Free && wanted(state, *w, *c))
            .collect();
        (!matching.is_empty()).then(|| self.random.one_of(&matching))
    }

    /// As [`Generator::cell`]; where there is none, any live cell, or any.
    fn cell_or_any(&mut self, wanted: impl Fn(&State, u8, u8) -> bool) -> (u8, u8) {
        if let Some(found) = self.cell(wanted) {
            return found;
        }
        if let Some(found) = self.cell(|_, _, _| true) {
            return found;
        }
        (self.worker(), self.random.below(CELLS) as u8)
    }

    fn slot(&mut self, wanted: impl Fn(&State, Message) -> bool) -> Option<u8> {
        let state = &self.state;
        let slots = state.slots.iter().zip(0_u8..);
        let matching: Vec<u8> = slots
            .filter(|(slot, _)| slot.is_some_and(|message| wanted(state, message)))
            .map(|(_, s)| s)
            .collect();
        (!matching.is_empty()).then(|| self.random.one_of(&matching))
    }

    /// A caller: above 255 in so many of a hundred, else 0 to 255.
    fn caller(&mut self, above_255: usize) -> u32 {
        let byte = u32::from(self.random.byte());
        if self.random.percent(above_255) {
            match self.random.below(4) {
                0 => 256,
                1 => u32::MAX,
                // One bit above the byte.
                2 => (1 << (8 + self.random.below(24))) | byte,
                _ => (self.random.number() as u32).max(256),
            }
        } else {
            match self.random.below(10) {
                0 => 0,
                1 => 255,
                _ => byte,
            }
        }
    }

    fn number(&mut self) -> u32 {
        match self.random.below(5) {
            0 => 0,
            1 => 1,
            2 => u32::MAX,
            3 => 1 << self.random.below(32),
            _ => self.random.number() as u32,
        }
    }

    fn edge(&mut self) -> u8 {
        let p = self.state.workers;
        let edges = [0, 1, 7, 8, 15, 16, 31, 32, 63, 64, 127, 128, 254, 255];
        match self.random.below(20) {
            0 | 1 => p,
            2 | 3 => p.wrapping_sub(1),
            4 | 5 => self.random.byte(),
            6..=10 => self.random.below(8) as u8,
            _ => self.random.one_of(&edges),
        }
    }

    // ---------------------------------------------------------------- steps

    /// So many steps of a mix, or until the input is full.
    fn steps(&mut self, mix: Mix, count: usize) {
        for _ in 0..count {
            if self.full() {
                return;
            }
            let step = self.choose(mix);
            self.step(step);
        }
    }

    fn choose(&mut self, mix: Mix) -> Step {
        let total: usize = mix.iter().map(|(_, share)| share).sum();
        let mut at = self.random.below(total);
        for (step, share) in mix {
            if at < *share {
                return *step;
            }
            at -= share;
        }
        unreachable!("the shares add up to the total")
    }

    fn step(&mut self, step: Step) {
        let call = match step {
            Step::New => self.a_new(),
            Step::Set => self.a_set(),
            Step::Bind => self.a_bind(is_ex),
            Step::BindToKnown => self.a_bind(is_known),
            Step::Export => self.an_export(),
            Step::Indirect => self.an_indirect(),
            Step::Transfer => self.a_transfer(),
            Step::Drop => self.a_drop(),
            Step::Read => self.a_read(),
            Step::Ask => self.an_ask(),
            Step::Deliver => self.a_deliver(),
            Step::Bound => Call::Bound,
            Step::Edge => self.an_edge_call(),
            Step::BadLine => {
                let line = self.a_bad_line();
                self.line(&line);
                return;
            }
            Step::Start => {
                self.a_start();
                return;
            }
        };
        self.call(call);
    }

    fn a_new(&mut self) -> Call {
        Call::New { w: self.worker(), caller: self.caller(10) }
    }

    fn a_set(&mut self) -> Call {
        let (w, c) = self.cell_or_any(|state, w, c| is_var(state.cell(w, c)));
        Call::Set { w, c, n: self.number() }
    }

    /// A bind to a cell whose end is as wanted.
    fn a_bind(&mut self, wanted: impl Fn(Cell) -> bool) -> Call {
        let wants_exported = self.random.percent(50);
        let (w, x) = self.cell_or_any(|state, w, c| {
            let mut cells = state.cells[usize::from(w)].iter();
            wanted(state.end_cell(w, c)) && cells.any(|cell| is_var(*cell))
        });
        let c = self.cell(|state, owner, c| {
            let exported = state.entry_naming(owner, c).is_some();
            owner == w && is_var(state.cell(owner, c)) && exported == wants_exported
        });
        let c = c.or_else(|| self.cell(|_, owner, _| owner == w));
        let c = c.map_or(0, |(_, c)| c);
        Call::Bind { w, c, x }
    }

    fn an_export(&mut self) -> Call {
        let (w, c) = match self.random.below(4) {
            0 => self.cell_or_any(|state, w, c| !is_ex(state.end_cell(w, c))),
            1 => self.cell_or_any(|state, w, c| weight(state.end_cell(w, c)) > 1),
            _ => self.cell_or_any(|_, _, _| true),
        };
        let to = self.other_worker(w);
        Call::Export { w, c, to }
    }

    fn an_indirect(&mut self) -> Call {
        let (w, c) = self.cell_or_any(|state, w, c| is_ex(state.end_cell(w, c)));
        let to = self.other_worker(w);
        Call::Indirect { w, c, to }
    }

    fn a_transfer(&mut self) -> Call {
        let free_to_go = self.random.percent(75);
        let (w, c) = self.cell_or_any(|state, w, c| {
            is_ex(state.cell(w, c)) && (!free_to_go || !state.busy(w, c))
        });
        let to = match self.state.cell(w, c) {
            Cell::Ex(ex) if self.random.percent(30) => ex.owner,
            _ => self.other_worker(w),
        };
        Call::Transfer { w, c, to }
    }

    fn a_drop(&mut self) -> Call {
        let free_to_go = self.random.percent(80);
        let (w, c) = self.cell_or_any(|state, w, c| !free_to_go || !state.busy(w, c));
        Call::Drop { w, c }
    }

    fn a_read(&mut self) -> Call {
        let wants_idle = self.random.percent(60);
        let (w, c) = self.cell_or_any(|state, w, c| match state.end_cell(w, c) {
            Cell::Ex(ex) => !wants_idle || ex.value == Value::Idle,
            _ => !wants_idle,
        });
        Call::Read { w, c }
    }

    fn an_ask(&mut self) -> Call {
        let wants_silent = self.random.percent(80);
        let (w, c) = self.cell_or_any(|state, w, c| match state.end_cell(w, c) {
            Cell::Ex(ex) => !wants_silent || !ex.asking,
            _ => false,
        });
        Call::Ask { w, c }
    }

    fn a_deliver(&mut self) -> Call {
        let s = match self.random.below(20) {
            0 => None,
            1 => self.slot(|_, _| true),
            _ => self.slot(State::ready),
        };
        let s = s.unwrap_or_else(|| self.random.below(SLOTS) as u8);
        Call::Deliver { s }
    }

    /// A call with a number or two at the edges.
    fn an_edge_call(&mut self) -> Call {
        let (w, c) = self.cell_or_any(|_, _, _| true);
        let w = if self.random.percent(30) { self.edge() } else { w };
        let c = if self.random.percent(30) { self.edge() } else { c };
        let last = self.edge();
        match self.random.below(12) {
            0 => Call::New { w: last, caller: self.caller(50) },
            1 => {
                let n = self.number();
                Call::Set { w, c, n }
            }
            2 => Call::Bind { w, c, x: last },
            3 => Call::Export { w, c, to: last },
            4 => Call::Indirect { w, c, to: last },
            5 => Call::Transfer { w, c, to: last },
            6 => Call::Drop { w, c },
            7 => Call::Read { w, c },
            8 => Call::Ask { w, c },
            9 | 10 => Call::Deliver { s: last },
            _ => Call::Bound,
        }
    }

    /// A start in the middle: mostly a good one; after a refused one a few
    /// calls on the closed state, then a good one.
    fn a_start(&mut self) {
        if self.random.percent(40) {
            let p = self.random.one_of(&[0, 9, 10, 16, 128, 255]);
            self.call(Call::Start { p });
            for _ in 0..self.random.below(6) {
                let step = self.random.one_of(&[Step::New, Step::Edge, Step::Bound]);
                self.step(step);
            }
        }
        self.good_start();
    }

    fn good_start(&mut self) {
        let p = self.random.one_of(&[1, 2, 2, 3, 3, 4, 5, 6, 7, 8, 8, 8]);
        self.call(Call::Start { p });
    }

    /// A line that is not a frame, mostly one digit away from one.
    fn a_bad_line(&mut self) -> Vec<u8> {
        let step = self.choose(CHURN);
        let frame = match step {
            Step::Set => self.a_set(),
            Step::Export => self.an_export(),
            Step::Drop => self.a_drop(),
            Step::Deliver => self.a_deliver(),
            Step::Bound => Call::Bound,
            Step::Read => self.a_read(),
            _ => self.a_new(),
        };
        let mut line = model::encode(frame).to_vec();
        let at = self.random.below(line.len());
        match self.random.below(14) {
            0 => line.clear(),
            1 => line.push(b'\r'),
            2 => line.truncate(at),
            3 => line.insert(at, b'0'),
            4 => line.insert(0, b' '),
            5 => line = [line.as_slice(), line.as_slice()].concat(),
            // The neighbours of the digits, a NUL and bytes above 127.
            6 => line[at] = self.random.one_of(b"/:`g@G \t\0\x7f\x80\xff-+x"),
            7 => line[at] = self.random.one_of(b"ABCDEF"),
            8 => {
                // A call that there is not.
                let call = self.random.one_of(&[0, 0x0d, 0x0e, 0x0f, 0x10, 0x20, 0x80, 0xff]);
                line[..2].copy_from_slice(format!("{call:02x}").as_bytes());
            }
            9..=12 => {
                // A byte or number that is not used and not 0, mostly the second
                // or third byte, which a new does not use. Where it is used this
                // is a frame, and is run as one.
                let at = self.random.one_of(&[3, 5, 5, 5, 7, 7, 7, 9, 11, 13, 15]);
                line[at] = self.random.one_of(b"123456789abcdef");
            }
            _ => {
                let length = self.random.below(40);
                line = (0..length).map(|_| self.random.byte()).collect();
                line.retain(|byte| *byte != b'\n');
            }
        }
        line
    }

    // --------------------------------------------------------------- phases

    /// Fills the cells of a worker.
    fn fill_cells(&mut self) {
        let w = self.worker();
        for _ in 0..CELLS + 2 {
            let caller = self.caller(0);
            if let Some(Err(Refusal::NoFreeCell)) = self.call(Call::New { w, caller }) {
                break;
            }
            if self.random.percent(10) {
                self.steps(CHURN, 1);
            }
        }
        // Everything that needs a cell at that worker.
        for _ in 0..8 {
            let caller = self.caller(50);
            self.call(Call::New { w, caller });
            let (from, c) = self.cell_or_any(|_, owner, _| owner != w);
            self.call(Call::Export { w: from, c, to: w });
            let (from, c) =
                self.cell_or_any(|state, owner, c| owner != w && is_ex(state.end_cell(owner, c)));
            self.call(Call::Indirect { w: from, c, to: w });
            let (from, c) = self.cell_or_any(|state, owner, c| {
                owner != w && is_ex(state.cell(owner, c)) && !state.busy(owner, c)
            });
            self.call(Call::Transfer { w: from, c, to: w });
        }
    }

    /// Fills the entries of a worker.
    fn fill_entries(&mut self) {
        let w = self.worker();
        // A few imports, so that there is an EX without an entry.
        for _ in 0..3 {
            let from = self.other_worker(w);
            if let Some(c) = self.new_cell(from) {
                self.hand_over(Call::Export { w: from, c, to: w });
            }
        }
        for _ in 0..24 {
            let Some(c) = self.new_cell(w) else {
                break;
            };
            let to = self.other_worker(w);
            match self.call(Call::Export { w, c, to }) {
                Some(Ok(Answer::Done(s))) if self.random.percent(80) => {
                    self.call(Call::Deliver { s: s as u8 });
                }
                Some(Err(Refusal::NoFreeEntry)) => break,
                _ => {}
            }
        }
        for _ in 0..6 {
            let (w, c) = self.cell_or_any(|state, owner, c| {
                owner == w && is_ex(state.cell(owner, c)) && state.entry_naming(owner, c).is_none()
            });
            let to = self.other_worker(w);
            self.call(Call::Indirect { w, c, to });
        }
    }

    /// Fills the slots, then goes on sending.
    fn fill_slots(&mut self) {
        for _ in 0..400 {
            if self.full() || self.state.slots.iter().all(Option::is_some) {
                break;
            }
            self.steps(SEND, 1);
        }
        self.steps(SEND, 40);
    }

    /// Delivers until nothing is ready, in a random order.
    fn drain(&mut self) {
        while !self.full() {
            let Some(s) = self.slot(State::ready) else {
                break;
            };
            self.call(Call::Deliver { s });
            if self.random.percent(4) {
                self.steps(CHURN, 1);
            }
        }
        for _ in 0..3 {
            if let Some(s) = self.slot(|_, _| true) {
                self.call(Call::Deliver { s });
            }
        }
        self.call(Call::Bound);
    }

    /// Drops or sends home all that can be, until little is left.
    fn tear_down(&mut self) {
        for _ in 0..4 {
            for w in 0..self.state.workers {
                for c in 0..CELLS as u8 {
                    if self.full() || self.state.cell(w, c) == Cell::Free {
                        continue;
                    }
                    match self.state.cell(w, c) {
                        Cell::Ex(ex) if self.random.percent(30) => {
                            let to = ex.owner;
                            self.call(Call::Transfer { w, c, to });
                        }
                        Cell::Var { .. } if self.random.percent(30) => {
                            let n = self.number();
                            self.call(Call::Set { w, c, n });
                        }
                        _ => {
                            self.call(Call::Drop { w, c });
                        }
                    }
                }
            }
            self.drain();
        }
    }

    /// Looks at every live cell.
    fn probe(&mut self) {
        for w in 0..self.state.workers {
            for c in 0..CELLS as u8 {
                if self.state.cell(w, c) != Cell::Free && self.random.percent(60) {
                    self.call(Call::Read { w, c });
                }
            }
        }
        self.call(Call::Bound);
    }

    /// A chain of references through the workers, with reads along it.
    fn chain(&mut self) {
        let p = self.state.workers;
        if p < 2 {
            return;
        }
        let mut order: Vec<u8> = match self.random.below(3) {
            0 => (0..p).collect(),
            1 => (0..p).rev().collect(),
            _ => (0..12).map(|_| self.random.below(usize::from(p)) as u8).collect(),
        };
        order.dedup();
        let mut links: Vec<(u8, u8)> = Vec::new();
        let mut w = order[0];
        let Some(mut c) = self.new_cell(w) else {
            return;
        };
        let origin = (w, c);
        for to in order.into_iter().skip(1) {
            let Some(cell) = self.link(w, c, to) else {
                break;
            };
            (w, c) = (to, cell);
            links.push((w, c));
        }
        if links.is_empty() {
            return;
        }
        for _ in 0..8 + self.random.below(30) {
            match self.random.below(12) {
                0 => {
                    let n = self.number();
                    let (w, c) = origin;
                    self.call(Call::Set { w, c, n });
                }
                1..=5 => {
                    let (w, c) = self.random.one_of(&links);
                    self.call(Call::Read { w, c });
                }
                6 => self.steps(CHURN, 1),
                _ => {
                    let read = self.slot(|state, message| {
                        matches!(message, Message::Read { .. } | Message::Answer { .. })
                            && state.ready(message)
                    });
                    let s = read.unwrap_or_else(|| self.random.below(SLOTS) as u8);
                    self.call(Call::Deliver { s });
                }
            }
        }
    }

    /// One link of a chain: the cell in which a worker now has what was in cell
    /// c of worker w.
    fn link(&mut self, w: u8, c: u8, to: u8) -> Option<u8> {
        if !is_ex(self.state.end_cell(w, c)) {
            return self.hand_over(Call::Export { w, c, to });
        }
        match self.random.below(5) {
            // By reference: the link is skipped.
            0 => self.hand_over(Call::Export { w, c, to }),
            // The EX cell itself.
            1 | 2 => self.hand_over(Call::Indirect { w, c, to }),
            // A VAR that is bound to the EX before it goes, or after.
            3 => {
                let bound = self.new_cell(w)?;
                self.call(Call::Bind { w, c: bound, x: c });
                self.hand_over(Call::Indirect { w, c: bound, to })
            }
            _ => {
                let bound = self.new_cell(w)?;
                let there = self.hand_over(Call::Export { w, c: bound, to });
                self.call(Call::Bind { w, c: bound, x: c });
                there
            }
        }
    }

    /// Binds VARs, some of which others read, to an EX while it is idle, while it
    /// is reading and once it is known, or to a REF to it. What follows tells a
    /// VAL from a REF.
    fn binds_around_an_answer(&mut self) {
        let owner = self.worker();
        let Some(origin) = self.new_cell(owner) else {
            return;
        };
        let (mut w, mut x) = (owner, origin);
        // The entry of a second link may be tainted.
        for _ in 0..1 + self.random.below(2) {
            let to = self.other_worker(w);
            let Some(cell) = self.link(w, x, to) else {
                return;
            };
            (w, x) = (to, cell);
        }
        let mut vars = Vec::new();
        for _ in 0..4 {
            vars.extend(self.new_cell(w));
            vars.extend(self.a_var_that_is_read(w));
        }
        let Some(first) = vars.first().copied() else {
            return;
        };

        // Idle: the first becomes a REF, to which others are bound.
        self.call(Call::Bind { w, c: first, x });
        let leads_to_x = [x, first];
        self.perhaps_bind_one(w, &vars, leads_to_x);
        let read = self.done(Call::Read { w, c: x });
        self.perhaps_bind_one(w, &vars, leads_to_x);
        let n = self.number();
        self.call(Call::Set { w: owner, c: origin, n });
        if let Some(s) = read {
            // Along two links at most, and back as the Answer.
            for _ in 0..3 {
                self.call(Call::Deliver { s });
            }
        }
        for c in vars.iter().copied().skip(1) {
            let x = self.random.one_of(&leads_to_x);
            self.call(Call::Bind { w, c, x });
        }

        self.call(Call::Drop { w, c: first });
        for _ in 0..10 {
            let c = self.random.one_of(&vars);
            let to = self.other_worker(w);
            let call = match self.random.below(7) {
                0 => Call::Read { w, c },
                1 => Call::Ask { w, c },
                2 => Call::Indirect { w, c, to },
                3 => Call::Drop { w, c: x },
                4 => Call::Transfer { w, c: x, to },
                _ => self.a_deliver(),
            };
            self.call(call);
        }
    }

    /// A VAR of a worker that another one reads, if it can be sent there.
    fn a_var_that_is_read(&mut self, w: u8) -> Option<u8> {
        let c = self.new_cell(w)?;
        let reader = self.other_worker(w);
        if let Some(there) = self.hand_over(Call::Export { w, c, to: reader }) {
            self.call(Call::Read { w: reader, c: there });
        }
        Some(c)
    }

    /// Binds, in half of all cases, one of the cells to one that leads to x.
    fn perhaps_bind_one(&mut self, w: u8, cells: &[u8], leads_to_x: [u8; 2]) {
        if self.random.percent(50) {
            let c = self.random.one_of(cells);
            let x = self.random.one_of(&leads_to_x);
            self.call(Call::Bind { w, c, x });
        }
    }

    /// Halves the weight of an EX down to 1.
    fn split(&mut self) {
        let found = self.cell(|state, w, c| is_ex(state.cell(w, c)));
        let Some((w, c)) = found else {
            return;
        };
        for _ in 0..22 {
            let to = self.other_worker(w);
            match self.call(Call::Export { w, c, to }) {
                Some(Ok(Answer::Done(s))) if self.random.percent(90) => {
                    self.call(Call::Deliver { s: s as u8 });
                }
                Some(Err(Refusal::WeightOne)) => break,
                _ => {}
            }
        }
        let to = self.random.below(8) as u8;
        self.call(Call::Export { w, c, to });
        for _ in 0..self.random.below(6) {
            self.call(Call::Ask { w, c });
            self.steps(CHURN, 2);
        }
    }

    /// Brings an entry to the ceiling, by export of a VAR or VAL or by indirect
    /// export of an EX, and then asks for more.
    fn ceiling(&mut self, by_indirect: bool) {
        let p = 3 + self.random.below(6) as u8;
        self.call(Call::Start { p });
        let owner = self.worker();
        let Some((w, c)) = self.ceiling_cell(owner, by_indirect) else {
            return;
        };
        let export = |to| match by_indirect {
            true => Call::Indirect { w, c, to },
            false => Call::Export { w, c, to },
        };
        // A small share that is given back before or after the ceiling.
        let small = self.other_worker(w);
        let Some(small_cell) = self.hand_over(export(small)) else {
            return;
        };
        let give_back_first = self.random.percent(50);
        let half_home = Call::Export { w: small, c: small_cell, to: w };
        if give_back_first {
            self.hand_over(half_home);
        }
        let mut to = self.other_worker(w);
        while !self.full() {
            match self.call(export(to)) {
                Some(Ok(Answer::Done(s))) => {
                    if self.random.percent(98) {
                        self.call(Call::Deliver { s: s as u8 });
                    }
                }
                Some(Err(Refusal::Ceiling)) => break,
                _ => self.drain(),
            }
            if self.random.percent(1) {
                to = self.other_worker(w);
                self.steps(CHURN, 1);
            }
        }
        // Weight is not in any answer: whether an export is refused at the
        // ceiling, and how often an EX can be halved, tells how much there is.
        for _ in 0..10 + self.random.below(60) {
            match self.random.below(6) {
                0 | 1 => {
                    let ask = Call::Ask { w: small, c: small_cell };
                    if let Some(s) = self.done(ask) {
                        self.call(Call::Deliver { s });
                        self.call(Call::Bound);
                        self.call(Call::Deliver { s });
                    }
                }
                2 | 3 => {
                    self.hand_over(half_home);
                }
                _ => {
                    self.hand_over(export(small));
                }
            }
            self.call(export(to));
            self.drain();
        }
    }

    /// A VAR or VAL of a worker, or, to be exported indirectly, an EX for it.
    fn ceiling_cell(&mut self, owner: u8, by_indirect: bool) -> Option<(u8, u8)> {
        let c = self.new_cell(owner)?;
        if self.random.percent(50) {
            let n = self.number();
            self.call(Call::Set { w: owner, c, n });
        }
        if !by_indirect {
            return Some((owner, c));
        }
        let w = self.other_worker(owner);
        let c = self.hand_over(Call::Export { w: owner, c, to: w })?;
        Some((w, c))
    }

    /// Shows what no answer has shown yet: every VAR is set, what is on its way
    /// is delivered, a weight is halved down to 1, and all is torn down, so that
    /// an entry that is freed too early or too late shows in a cell that can or
    /// cannot be dropped.
    fn audit(&mut self) {
        while let Some((w, c)) = self.cell(|state, w, c| is_var(state.cell(w, c))) {
            if self.full() {
                return;
            }
            let n = self.number();
            self.call(Call::Set { w, c, n });
        }
        self.drain();
        self.split();
        self.probe();
        self.drain();
        self.probe();
        self.tear_down();
    }

    /// Any phase but the long ones.
    fn some_phase(&mut self) {
        let count = 10 + self.random.below(150);
        match self.random.below(17) {
            0 | 1 => self.steps(GROW, count),
            2 | 3 => self.steps(CHURN, count),
            4 => self.steps(READ, count),
            5 => self.steps(SHRINK, count),
            6 => self.steps(HOSTILE, count / 4),
            7 => self.fill_cells(),
            8 => self.fill_entries(),
            9 => self.fill_slots(),
            10 => self.drain(),
            11 | 12 => self.chain(),
            13 | 14 => self.split(),
            15 => self.binds_around_an_answer(),
            _ => match self.random.below(4) {
                0 => self.tear_down(),
                1 => self.probe(),
                2 => self.a_start(),
                _ => self.audit(),
            },
        }
    }

    // ------------------------------------------- states for the benchmark

    /// A step of the benchmark. Every caller is 0, so that callers change nothing
    /// in its inputs.
    fn step_of_caller_0(&mut self, step: Step) {
        match step {
            Step::New => {
                let w = self.worker();
                self.call(Call::New { w, caller: 0 });
            }
            _ => self.step(step),
        }
    }

    /// Starts 8 workers and fills about half of all tables.
    pub fn grow_busy(&mut self) {
        self.call(Call::Start { p: 8 });
        for _ in 0..450 {
            let step = self.choose(&GROW[..8]);
            self.step_of_caller_0(step);
        }
    }

    /// Goes on in a busy state: as much is taken away as is added, so that
    /// about half of the cells and a third of the slots stay in use.
    pub fn stay_busy(&mut self) {
        while !self.full() {
            let free: usize = (0..self.state.workers).map(|w| self.state.free_cells(w)).sum();
            let ready = self.state.messages().filter(|message| self.state.ready(*message)).count();
            let waiting = self.state.messages().count() - ready;
            let step = if ready > 20 {
                Step::Deliver
            } else if waiting > 6 {
                Step::Set
            } else if free < 120 && self.random.percent(50) {
                Step::Drop
            } else {
                self.choose(&CHURN[..11])
            };
            self.step_of_caller_0(step);
        }
    }

    /// Fills all slots and keeps them full: one is delivered, one is sent, and
    /// between these are calls that send nothing or find no empty slot.
    pub fn stay_full(&mut self) {
        while !self.full() {
            let step = if self.state.slots.iter().all(Option::is_some) {
                self.random.one_of(&[
                    Step::Read,
                    Step::Ask,
                    Step::Bound,
                    Step::Export,
                    Step::Deliver,
                ])
            } else {
                self.random.one_of(&[Step::Export, Step::Read, Step::Ask])
            };
            self.step(step);
        }
    }
}

fn is_var(cell: Cell) -> bool {
    matches!(cell, Cell::Var { .. })
}

fn is_ex(cell: Cell) -> bool {
    matches!(cell, Cell::Ex(_))
}

fn is_known(cell: Cell) -> bool {
    matches!(cell, Cell::Ex(Ex { value: Value::Known(_), .. }))
}

fn weight(cell: Cell) -> u32 {
    match cell {
        Cell::Ex(ex) => ex.weight,
        _ => 0,
    }
}

// -------------------------------------------------------------------- cases

/// One input of the differential test.
pub struct Case {
    /// The seed it was made from.
    pub seed: u64,
    /// What it begins with.
    pub scenario: &'static str,
    /// The input.
    pub text: Vec<u8>,
    /// What the input meets.
    pub coverage: Coverage,
}

/// What a case begins with: a seed takes the one at its remainder.
pub const SCENARIOS: [&str; 9] = [
    "mixed",
    "chains",
    "full tables",
    "full slots",
    "ceiling",
    "ceiling, indirect",
    "split",
    "hostile",
    "lengths",
];

/// The case of a seed.
pub fn case(seed: u64) -> Case {
    let scenario = SCENARIOS[(seed % SCENARIOS.len() as u64) as usize];
    let mut random = Random::new(seed ^ 0xe4d2_05b0);
    let long = scenario.starts_with("ceiling");
    let limit = match random.below(8) {
        _ if long => LONGEST_INPUT,
        0 => 17 * (1 + random.below(40)),
        1 | 2 => 17 * (40 + random.below(360)),
        3..=5 => 17 * (400 + random.below(1_600)),
        _ => LONGEST_INPUT,
    };
    let mut generator = Generator::new(seed, limit);
    if random.percent(10) {
        // Before any start the program is closed.
        generator.steps(HOSTILE, 1 + random.below(10));
    }
    generator.good_start();
    match scenario {
        "chains" => {
            generator.call(Call::Start { p: 8 });
            for _ in 0..6 {
                generator.chain();
            }
        }
        "full tables" => {
            generator.steps(GROW, 150);
            generator.fill_entries();
            generator.fill_cells();
            generator.probe();
            generator.tear_down();
        }
        "full slots" => {
            generator.steps(GROW, 300);
            generator.fill_slots();
            generator.probe();
            generator.drain();
        }
        "ceiling" => generator.ceiling(false),
        "ceiling, indirect" => generator.ceiling(true),
        "split" => {
            generator.steps(GROW, 60);
            for _ in 0..6 {
                generator.split();
            }
        }
        "hostile" => generator.steps(HOSTILE, 300),
        _ => generator.steps(GROW, 100),
    }
    // Some cases keep room for a look at all that is left.
    let audited = limit > 17 * 400 && random.percent(60);
    generator.limit = if audited { limit - 17 * 300 } else { limit };
    while !generator.full() {
        generator.some_phase();
    }
    generator.limit = limit;
    if audited {
        generator.audit();
    }
    let (mut text, mut coverage) = generator.finish();
    if scenario == "lengths" {
        text = with_length(text, &mut random, &mut coverage);
    } else if random.percent(25) {
        // "A last line may lack its newline".
        text.pop();
    }
    Case { seed, scenario, text, coverage }
}

/// A text cut or filled up to a length near one of the ends: empty, a few
/// bytes, 65,536 bytes, and one byte or more beyond.
fn with_length(mut text: Vec<u8>, random: &mut Random, coverage: &mut Coverage) -> Vec<u8> {
    let length = match random.below(8) {
        0 => random.below(3),
        1 => random.below(40),
        2 => text.len(),
        3 => LONGEST_INPUT - 1,
        4 => LONGEST_INPUT,
        5 => LONGEST_INPUT + 1,
        6 => LONGEST_INPUT + 1 + random.below(40),
        _ => LONGEST_INPUT + random.below(LONGEST_INPUT),
    };
    let filler: &[u8] = match random.below(4) {
        0 => b"\n",
        1 => b"0c00000000000000\n",
        2 => b"0",
        _ => b"\r\n",
    };
    if length < text.len() || length > LONGEST_INPUT {
        // Some lines or all are not run: what they would have met does not
        // count, and to be sure none of the others does.
        let too_long = u64::from(length > LONGEST_INPUT);
        *coverage = Coverage { too_long, ..Coverage::default() };
    }
    while text.len() < length {
        text.extend_from_slice(filler);
    }
    text.truncate(length);
    text
}

#[cfg(test)]
mod tests {
    use super::*;

    #[test]
    fn a_seed_gives_the_same_case_again() {
        for seed in 0..20 {
            assert_eq!(case(seed).text, case(seed).text);
        }
    }

    #[test]
    fn every_state_generated_is_sound() {
        // The model tests soundness before each call: refusal 2 would show.
        for seed in 0..40 {
            let answers = model::run_text(&case(seed).text);
            let mut lines = answers.split(|byte| *byte == b'\n');
            assert!(!lines.any(|line| line.starts_with(b"02")), "seed {seed}");
        }
    }

    #[test]
    fn the_first_cases_meet_all_there_is() {
        let mut coverage = Coverage::default();
        for seed in 1..=180 {
            coverage.add(&case(seed).coverage);
        }
        assert_eq!(coverage.gaps(), Vec::<String>::new());
    }

    /// Shows each line of the first cases that are run, with the state before it.
    fn each_line(mut show: impl FnMut(&State, &[u8])) {
        for text in (1..=180).map(|seed| case(seed).text) {
            if text.len() > LONGEST_INPUT {
                continue;
            }
            let mut state = State::closed();
            for line in text.split(|byte| *byte == b'\n') {
                show(&state, line);
                if let Some(call) = model::decode(line) {
                    state.call_with::<false>(call).ok();
                }
            }
        }
    }

    /// Refusal 16 together with 3, with 12 and alone; and lines that are not
    /// frames of new for their second or third byte alone.
    #[test]
    fn the_first_cases_meet_callers_above_255() {
        let (mut with_3, mut with_12, mut alone, mut no_frames) = (0, 0, 0, 0);
        let digits = b"0123456789abcdef";
        each_line(|state, line| match model::decode(line) {
            None => {
                let has_digits = line.iter().all(|byte| digits.contains(byte));
                let is_near = line.len() == 16 && line.starts_with(b"02") && has_digits;
                no_frames += u32::from(is_near);
            }
            Some(Call::New { w, caller: 256.. }) if w >= state.workers => with_3 += 1,
            Some(Call::New { w, caller: 256.. }) if state.free_cells(w) <= state.booked(w) => {
                with_12 += 1;
            }
            Some(Call::New { caller: 256.., .. }) => alone += 1,
            Some(_) => {}
        });
        let met = [with_3, with_12, alone, no_frames];
        assert!(!met.contains(&0), "{met:?}");
    }

    /// Refusal 8 for an EX that is idle and for one that is reading, each also
    /// at a REF's end; and binds to a known EX that make a Read ready.
    #[test]
    fn the_first_cases_meet_binds_before_and_after_an_answer() {
        let ready = |state: &State| {
            let messages = state.messages();
            messages.filter(|message| state.ready(*message)).count()
        };
        let (mut idle, mut reading) = ([0, 0], [0, 0]);
        let mut made_ready = 0;
        each_line(|state, line| {
            let Some(call @ Call::Bind { w, x, .. }) = model::decode(line) else {
                return;
            };
            let mut next = state.clone();
            match next.call_with::<false>(call) {
                Ok(_) if is_known(state.end_cell(w, x)) => {
                    made_ready += u32::from(ready(&next) > ready(state));
                }
                Err(Refusal::Unsafe) => {
                    let through_ref = usize::from(!is_ex(state.cell(w, x)));
                    match state.end_cell(w, x) {
                        Cell::Ex(Ex { value: Value::Idle, .. }) => idle[through_ref] += 1,
                        Cell::Ex(Ex { value: Value::Reading, .. }) => reading[through_ref] += 1,
                        other => panic!("{call} is refused 8 for {other:?}"),
                    }
                }
                _ => {}
            }
        });
        let met = [idle[0], idle[1], reading[0], reading[1], made_ready];
        assert!(!met.contains(&0), "{met:?}");
    }
}
