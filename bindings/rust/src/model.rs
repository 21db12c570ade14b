//! A plain model of document 01, "What is being built, with exact rules", and of
//! what document 02 changes in it: W-201, "Charge time to callers", W-202, "Cost
//! report", and W-203, "Bind to a reference whose value is known".
//!
//! The model is written from the documents and from nothing else, so that it
//! can be compared with the library. It is meant to be read beside them: every
//! part begins with the sentence it follows, in quotation marks, a sentence of
//! document 02 after the number of its request. Before it writes anything, each
//! call tests all that may refuse it, in the order of the refusal numbers; only
//! 16 is tested before 12.

use std::fmt;

/// "P workers, 0 to P-1, P from 1 to 8."
pub const WORKERS: usize = 8;

/// "Each worker has 32 cells and 16 export entries".
pub const CELLS: usize = 32;

/// "Each worker has 32 cells and 16 export entries".
pub const ENTRIES: usize = 16;

/// "64 message slots are shared."
pub const SLOTS: usize = 64;

/// "Weight is 1 to 1,048,576, the ceiling."
pub const CEILING: u32 = 1_048_576;

/// What an entry gains with each export by location, and, up to the ceiling,
/// with each Ask.
pub const GAIN: u32 = 1_024;

/// "Input is at most 65,536 bytes".
pub const LONGEST_INPUT: usize = 65_536;

/// "of a longer one nothing is run and the single line ffffffffff is printed."
pub const TOO_LONG: &[u8] = b"ffffffffff\n";

/// The value of a drop that sends no message: "any other kind: value 64".
pub const NOTHING_SENT: u32 = 64;

/// W-202: "At most 65,535 charges."
pub const MOST_CHARGES: usize = 65_535;

// ---------------------------------------------------------------- the state

/// "A cell is free or one of: 1 VAR, unbound; 2 VAL(n), n of 32 bits; 3
/// REF(cell of the same worker); 4 EX(owner, entry, weight, reading or idle or
/// known with value n, asking or not)." W-201: "VAR and VAL cells carry" a
/// caller, "a REF or EX has none of its own. Two cells that differ in caller are
/// different cells".
#[derive(Clone, Copy, Debug, PartialEq, Eq)]
#[allow(missing_docs)]
pub enum Cell {
    /// Not in use.
    Free,
    /// Unbound, with a caller, 0 to 255.
    Var { caller: u8 },
    /// A value of 32 bits, with a caller, 0 to 255.
    Val { n: u32, caller: u8 },
    /// Another cell of the same worker.
    Ref(u8),
    /// An import: a reference to an entry of another worker.
    Ex(Ex),
}

/// What an EX cell holds. "The EX cells of a worker are its import table."
#[derive(Clone, Copy, Debug, PartialEq, Eq)]
pub struct Ex {
    /// The worker that exported.
    pub owner: u8,
    /// The owner's entry.
    pub entry: u8,
    /// The share of that entry's weight that is held here.
    pub weight: u32,
    /// "reading or idle or known with value n".
    pub value: Value,
    /// "asking or not".
    pub asking: bool,
}

/// "reading or idle or known with value n".
#[derive(Clone, Copy, Debug, PartialEq, Eq)]
pub enum Value {
    /// Neither read nor known.
    Idle,
    /// A Read or its Answer is on its way.
    Reading,
    /// Answered.
    Known(u32),
}

/// "An entry is free, or holds (cell, weight, tainted or not)." A free one is
/// `None` in [`State::entries`].
#[derive(Clone, Copy, Debug, PartialEq, Eq)]
pub struct Entry {
    /// The cell exported.
    pub cell: u8,
    /// "Weight is 1 to 1,048,576, the ceiling."
    pub weight: u32,
    /// Made for an EX that was unsafe.
    pub tainted: bool,
}

/// "A slot is empty or holds" one of these. An empty one is `None` in
/// [`State::slots`].
#[derive(Clone, Copy, Debug, PartialEq, Eq)]
#[allow(missing_docs)]
pub enum Message {
    /// "1 Reference(to, owner, entry, weight)".
    Reference { to: u8, owner: u8, entry: u8, weight: u32 },
    /// "2 Release(owner, entry, weight)".
    Release { owner: u8, entry: u8, weight: u32 },
    /// "3 Read(reader, reader's cell, owner, entry)".
    Read { reader: u8, cell: u8, owner: u8, entry: u8 },
    /// "4 Answer(reader, cell, n)".
    Answer { reader: u8, cell: u8, n: u32 },
    /// "5 Ask(asker, cell, owner, entry)".
    Ask { asker: u8, cell: u8, owner: u8, entry: u8 },
    /// "6 Supply(asker, cell, weight)".
    Supply { asker: u8, cell: u8, weight: u32 },
}

/// The whole state.
#[derive(Clone, Debug, PartialEq, Eq)]
pub struct State {
    /// P, the number of workers; 0 in the closed state.
    pub workers: u8,
    /// The cells, by worker and number.
    pub cells: [[Cell; CELLS]; WORKERS],
    /// The export entries, by worker and number.
    pub entries: [[Option<Entry>; ENTRIES]; WORKERS],
    /// The message slots.
    pub slots: [Option<Message>; SLOTS],
}

// ------------------------------------------------------- calls and outcomes

/// A call with its arguments, by the document's letters: w a worker, c and x
/// cells, `to` the receiver, s a slot, n and `caller` numbers of 32 bits.
#[derive(Clone, Copy, Debug, PartialEq, Eq)]
#[allow(missing_docs)]
pub enum Call {
    Start { p: u8 },
    New { w: u8, caller: u32 },
    Set { w: u8, c: u8, n: u32 },
    Bind { w: u8, c: u8, x: u8 },
    Export { w: u8, c: u8, to: u8 },
    Indirect { w: u8, c: u8, to: u8 },
    Transfer { w: u8, c: u8, to: u8 },
    Drop { w: u8, c: u8 },
    Read { w: u8, c: u8 },
    Ask { w: u8, c: u8 },
    Deliver { s: u8 },
    Bound,
}

/// What a call that is not refused answers.
#[derive(Clone, Copy, Debug, PartialEq, Eq)]
pub enum Answer {
    /// Done, with a value.
    Done(u32),
    /// A message was sent by read or ask; the value is its slot.
    Sent(u32),
    /// Read while reading, or ask while asking.
    Waiting,
    /// Read of a VAR.
    Unbound,
}

/// The refusal numbers.
#[derive(Clone, Copy, Debug, PartialEq, Eq)]
#[repr(u8)]
pub enum Refusal {
    /// "P is 0 or above 8; returns the closed state".
    WorkerCount = 1,
    /// "state not sound".
    NotSound = 2,
    /// "a worker number is P or more".
    NoSuchWorker = 3,
    /// "`to` equals w".
    SameWorker = 4,
    /// "cell number above 31, or cell free".
    NoSuchCell = 5,
    /// "cell not of the kind named above".
    WrongKind = 6,
    /// "busy".
    Busy = 7,
    /// "c has a live entry and the EX is unsafe". W-203: "only for an EX that is
    /// not known."
    Unsafe = 8,
    /// "EX of weight 1".
    WeightOne = 9,
    /// "entry would pass the ceiling".
    Ceiling = 10,
    /// "no free entry where one is needed".
    NoFreeEntry = 11,
    /// "free cells at the receiver (for new, at w) do not exceed those booked".
    NoFreeCell = 12,
    /// "no empty slot where a message is sent".
    NoEmptySlot = 13,
    /// "slot above 63, or empty".
    NoSuchMessage = 14,
    /// "a read that is not ready".
    NotReady = 15,
    /// W-201: "a caller above 255".
    NoSuchCaller = 16,
    /// W-202: "17 for a longer list".
    TooManyCharges = 17,
}

impl Refusal {
    /// The document's number.
    pub fn number(self) -> u8 {
        self as u8
    }
}

/// What a call gives back besides the next state.
pub type Outcome = Result<Answer, Refusal>;

/// An entry, named by its owner and number.
type EntryName = (u8, u8);

// ------------------------------------------------------- words of the rules

impl State {
    /// "The closed state has P = 0 and everything free."
    pub fn closed() -> State {
        State {
            workers: 0,
            cells: [[Cell::Free; CELLS]; WORKERS],
            entries: [[None; ENTRIES]; WORKERS],
            slots: [None; SLOTS],
        }
    }

    /// The workers there are, "0 to P-1".
    fn worker_numbers(&self) -> std::ops::Range<u8> {
        0..self.workers
    }

    /// A cell, by worker and number.
    pub fn cell(&self, w: u8, c: u8) -> Cell {
        self.cells[usize::from(w)][usize::from(c)]
    }

    fn set_cell(&mut self, w: u8, c: u8, cell: Cell) {
        self.cells[usize::from(w)][usize::from(c)] = cell;
    }

    /// An entry, by owner and number.
    pub fn entry(&self, owner: u8, entry: u8) -> Option<Entry> {
        self.entries[usize::from(owner)][usize::from(entry)]
    }

    fn set_entry(&mut self, owner: u8, entry: u8, holds: Option<Entry>) {
        self.entries[usize::from(owner)][usize::from(entry)] = holds;
    }

    /// An entry that the soundness of the state says is live.
    fn live_entry(&self, owner: u8, entry: u8) -> Entry {
        self.entry(owner, entry).expect("points 2 and 4: what is named is live")
    }

    /// A cell that the soundness of the state says is an EX.
    fn ex(&self, w: u8, c: u8) -> Ex {
        match self.cell(w, c) {
            Cell::Ex(ex) => ex,
            _ => unreachable!("points 2 and 4: what is named is an EX"),
        }
    }

    /// "The *end* of a cell is the cell itself, or, for a REF, the cell it
    /// names." The number of the end, which is of the same worker.
    pub fn end(&self, w: u8, c: u8) -> u8 {
        match self.cell(w, c) {
            Cell::Ref(named) => named,
            _ => c,
        }
    }

    /// What is in the end of a cell.
    pub fn end_cell(&self, w: u8, c: u8) -> Cell {
        self.cell(w, self.end(w, c))
    }

    /// "An EX is *safe* if its owner's number is below its worker's and the
    /// entry is not tainted."
    pub fn safe(&self, w: u8, ex: Ex) -> bool {
        ex.owner < w && !self.live_entry(ex.owner, ex.entry).tainted
    }

    /// "*Booked* at a worker: the number of Reference messages going to it."
    pub fn booked(&self, w: u8) -> usize {
        self.messages()
            .filter(|message| matches!(message, Message::Reference { to, .. } if *to == w))
            .count()
    }

    /// How many cells of a worker are free.
    pub fn free_cells(&self, w: u8) -> usize {
        let cells = &self.cells[usize::from(w)];
        cells.iter().filter(|cell| **cell == Cell::Free).count()
    }

    /// "*Busy*: a cell that a live entry or a REF names, or an EX that is
    /// reading or asking."
    pub fn busy(&self, w: u8, c: u8) -> bool {
        let ref_names_it = self.cells[usize::from(w)].contains(&Cell::Ref(c));
        let waits = match self.cell(w, c) {
            Cell::Ex(ex) => ex.value == Value::Reading || ex.asking,
            _ => false,
        };
        self.entry_naming(w, c).is_some() || ref_names_it || waits
    }

    /// The messages in the slots.
    pub fn messages(&self) -> impl Iterator<Item = Message> + '_ {
        self.slots.iter().filter_map(|slot| *slot)
    }

    /// The live entry of a worker that names a cell: "no two of a worker name
    /// one cell".
    pub fn entry_naming(&self, w: u8, c: u8) -> Option<u8> {
        let entries = &self.entries[usize::from(w)];
        lowest(entries, |entry| entry.is_some_and(|entry| entry.cell == c))
    }

    /// The EX of a worker that names an entry: "no two EX of a worker name one
    /// entry".
    fn ex_naming(&self, w: u8, name: EntryName) -> Option<u8> {
        let cells = &self.cells[usize::from(w)];
        lowest(cells, |cell| matches!(cell, Cell::Ex(ex) if (ex.owner, ex.entry) == name))
    }

    /// "E the number of live entries."
    fn live_entries(&self) -> usize {
        self.entries.as_flattened().iter().flatten().count()
    }

    fn lowest_free_cell(&self, w: u8) -> Option<u8> {
        lowest(&self.cells[usize::from(w)], |cell| *cell == Cell::Free)
    }

    fn lowest_free_entry(&self, w: u8) -> Option<u8> {
        lowest(&self.entries[usize::from(w)], Option::is_none)
    }
}

/// ""Lowest free" always means the lowest number." The lowest number of what
/// is looked for in a table.
fn lowest<T>(table: &[T], looked_for: impl Fn(&T) -> bool) -> Option<u8> {
    table.iter().position(looked_for).map(|number| number as u8)
}

// ------------------------------------------------------------ a sound state

impl State {
    /// "Every call but the start first tests this; the test is itself public,
    /// yes or no."
    pub fn is_sound(&self) -> bool {
        self.first_broken_point() == 0
    }

    /// The first of the six points that the state breaks, 1 to 6, or 0 where
    /// it is sound. A point is looked at only where those before it hold.
    pub fn first_broken_point(&self) -> u8 {
        if !self.numbers_in_range() {
            1
        } else if !self.references_hold() {
            2
        } else if !self.entries_hold() {
            3
        } else if !self.messages_hold() {
            4
        } else if !self.weights_hold() {
            5
        } else if !self.bookings_hold() {
            6
        } else {
            0
        }
    }

    /// Point 1. "P is at most 8; everything of workers P and up is free; worker
    /// numbers in cells and messages are below P, cell numbers at most 31,
    /// entry numbers at most 15, weights at most the ceiling, a live entry's at
    /// least 1."
    fn numbers_in_range(&self) -> bool {
        let p = usize::from(self.workers);
        if p > WORKERS {
            return false;
        }
        let beyond_is_free = self.cells[p..].as_flattened().iter().all(is_free)
            && self.entries[p..].as_flattened().iter().all(Option::is_none);

        let worker = |w: u8| usize::from(w) < p;
        let cell = |c: u8| usize::from(c) < CELLS;
        let entry = |e: u8| usize::from(e) < ENTRIES;
        let weight = |weight: u32| weight <= CEILING;

        let cells = self.cells.as_flattened().iter().all(|held| match *held {
            Cell::Free | Cell::Var { .. } | Cell::Val { .. } => true,
            Cell::Ref(c) => cell(c),
            Cell::Ex(ex) => worker(ex.owner) && entry(ex.entry) && weight(ex.weight),
        });
        let entries = self.entries.as_flattened().iter().all(|held| match held {
            None => true,
            Some(held) => cell(held.cell) && weight(held.weight) && held.weight >= 1,
        });
        let messages = self.messages().all(|message| match message {
            Message::Reference { to, owner, entry: e, weight: sent } => {
                worker(to) && worker(owner) && entry(e) && weight(sent)
            }
            Message::Release { owner, entry: e, weight: sent } => {
                worker(owner) && entry(e) && weight(sent)
            }
            Message::Read { reader: to, cell: c, owner, entry: e }
            | Message::Ask { asker: to, cell: c, owner, entry: e } => {
                worker(to) && cell(c) && worker(owner) && entry(e)
            }
            Message::Answer { reader, cell: c, .. } => worker(reader) && cell(c),
            Message::Supply { asker, cell: c, weight: sent } => {
                worker(asker) && cell(c) && weight(sent)
            }
        });
        beyond_is_free && cells && entries && messages
    }

    /// Point 2. "A REF names an EX. An EX names a live entry of another worker,
    /// weight at least 1; no two EX of a worker name one entry."
    fn references_hold(&self) -> bool {
        self.worker_numbers().all(|w| {
            let mut named = [[false; ENTRIES]; WORKERS];
            self.cells[usize::from(w)].iter().all(|cell| match *cell {
                Cell::Free | Cell::Var { .. } | Cell::Val { .. } => true,
                Cell::Ref(c) => matches!(self.cell(w, c), Cell::Ex(_)),
                Cell::Ex(ex) => {
                    let mark = &mut named[usize::from(ex.owner)][usize::from(ex.entry)];
                    let named_before = std::mem::replace(mark, true);
                    ex.owner != w
                        && self.entry(ex.owner, ex.entry).is_some()
                        && ex.weight >= 1
                        && !named_before
                }
            })
        })
    }

    /// Point 3. "A live entry names a cell that is not free; no two of a worker
    /// name one cell. The cell of an untainted entry has as its end a VAR, a
    /// VAL or a safe EX."
    fn entries_hold(&self) -> bool {
        self.worker_numbers().all(|w| {
            let mut named = [false; CELLS];
            let mut live = self.entries[usize::from(w)].iter().flatten();
            live.all(|entry| {
                let mark = &mut named[usize::from(entry.cell)];
                let named_before = std::mem::replace(mark, true);
                let end_is_right = match self.end_cell(w, entry.cell) {
                    Cell::Var { .. } | Cell::Val { .. } => true,
                    Cell::Ex(ex) => self.safe(w, ex),
                    Cell::Free | Cell::Ref(_) => false,
                };
                !is_free(&self.cell(w, entry.cell))
                    && !named_before
                    && (entry.tainted || end_is_right)
            })
        })
    }

    /// Point 4. "Each reading EX has exactly one Read or Answer, and each of
    /// those has such an EX; likewise asking, Ask, Supply. Messages name live
    /// entries; weight is at least 1 in Reference and Release and may be 0 in
    /// Supply. An Ask names its EX's entry. A Read's entry is the one its EX
    /// names, or one reached from there by following ends and references."
    fn messages_hold(&self) -> bool {
        let mut reads_and_answers = [[0; CELLS]; WORKERS];
        let mut asks_and_supplies = [[0; CELLS]; WORKERS];
        for message in self.messages() {
            let holds = match message {
                Message::Reference { owner, entry, weight, .. }
                | Message::Release { owner, entry, weight } => {
                    self.entry(owner, entry).is_some() && weight >= 1
                }
                Message::Read { reader, cell, owner, entry } => {
                    reads_and_answers[usize::from(reader)][usize::from(cell)] += 1;
                    match self.cell(reader, cell) {
                        Cell::Ex(ex) => {
                            ex.value == Value::Reading
                                && self.entry(owner, entry).is_some()
                                && self.reached((ex.owner, ex.entry), (owner, entry))
                        }
                        _ => false,
                    }
                }
                Message::Answer { reader, cell, .. } => {
                    reads_and_answers[usize::from(reader)][usize::from(cell)] += 1;
                    match self.cell(reader, cell) {
                        Cell::Ex(ex) => ex.value == Value::Reading,
                        _ => false,
                    }
                }
                Message::Ask { asker, cell, owner, entry } => {
                    asks_and_supplies[usize::from(asker)][usize::from(cell)] += 1;
                    match self.cell(asker, cell) {
                        // The EX names a live entry, by point 2.
                        Cell::Ex(ex) => ex.asking && (ex.owner, ex.entry) == (owner, entry),
                        _ => false,
                    }
                }
                Message::Supply { asker, cell, .. } => {
                    asks_and_supplies[usize::from(asker)][usize::from(cell)] += 1;
                    match self.cell(asker, cell) {
                        Cell::Ex(ex) => ex.asking,
                        _ => false,
                    }
                }
            };
            if !holds {
                return false;
            }
        }

        let waiting_cells = self.cells.as_flattened().iter();
        let counts = reads_and_answers.as_flattened().iter().zip(asks_and_supplies.as_flattened());
        waiting_cells.zip(counts).all(|(cell, (reads, asks))| match cell {
            Cell::Ex(ex) => {
                (ex.value != Value::Reading || *reads == 1) && (!ex.asking || *asks == 1)
            }
            _ => true,
        })
    }

    /// Whether an entry is another one "or one reached from there by following
    /// ends and references".
    fn reached(&self, from: EntryName, wanted: EntryName) -> bool {
        let mut at = from;
        // Freedom from loops is not among the points. After as many steps as
        // there are entries every entry on the way has been met.
        for _ in 0..WORKERS * ENTRIES {
            if at == wanted {
                return true;
            }
            let (owner, entry) = at;
            match self.end_cell(owner, self.live_entry(owner, entry).cell) {
                Cell::Ex(ex) => at = (ex.owner, ex.entry),
                _ => return false,
            }
        }
        false
    }

    /// Point 5. "A live entry's weight is the sum over EX cells, References,
    /// Releases, and Supplies (by their EX) that name it."
    fn weights_hold(&self) -> bool {
        let mut sums = [[0_u64; ENTRIES]; WORKERS];
        let mut add = |owner: u8, entry: u8, weight: u32| {
            sums[usize::from(owner)][usize::from(entry)] += u64::from(weight);
        };
        for cell in self.cells.as_flattened() {
            if let Cell::Ex(ex) = cell {
                add(ex.owner, ex.entry, ex.weight);
            }
        }
        for message in self.messages() {
            match message {
                Message::Reference { owner, entry, weight, .. }
                | Message::Release { owner, entry, weight } => add(owner, entry, weight),
                Message::Supply { asker, cell, weight } => {
                    let ex = self.ex(asker, cell);
                    add(ex.owner, ex.entry, weight);
                }
                Message::Read { .. } | Message::Answer { .. } | Message::Ask { .. } => {}
            }
        }
        let entries = self.entries.as_flattened().iter();
        entries.zip(sums.as_flattened()).all(|(entry, sum)| match entry {
            Some(entry) => u64::from(entry.weight) == *sum,
            None => true,
        })
    }

    /// Point 6. "Free cells at each worker are at least those booked."
    fn bookings_hold(&self) -> bool {
        self.worker_numbers().all(|w| self.free_cells(w) >= self.booked(w))
    }
}

fn is_free(cell: &Cell) -> bool {
    *cell == Cell::Free
}

// ------------------------------------------------------ what refuses a call

impl State {
    /// Refusal 3: "a worker number is P or more".
    fn test_worker(&self, w: u8) -> Result<(), Refusal> {
        if w < self.workers { Ok(()) } else { Err(Refusal::NoSuchWorker) }
    }

    /// Refusals 3 and 4, for a call that sends a Reference: "a worker number is
    /// P or more", "`to` equals w".
    fn test_receiver(&self, w: u8, to: u8) -> Result<(), Refusal> {
        self.test_worker(w)?;
        self.test_worker(to)?;
        if to == w { Err(Refusal::SameWorker) } else { Ok(()) }
    }

    /// Refusal 5: "cell number above 31, or cell free". What is in the cell.
    fn test_cell(&self, w: u8, c: u8) -> Result<Cell, Refusal> {
        if usize::from(c) >= CELLS || is_free(&self.cell(w, c)) {
            Err(Refusal::NoSuchCell)
        } else {
            Ok(self.cell(w, c))
        }
    }

    /// Refusal 7: "busy".
    fn test_busy(&self, w: u8, c: u8) -> Result<(), Refusal> {
        if self.busy(w, c) { Err(Refusal::Busy) } else { Ok(()) }
    }

    /// Refusal 16, of W-201: "a caller above 255". The caller as a cell carries
    /// it.
    fn test_caller(caller: u32) -> Result<u8, Refusal> {
        u8::try_from(caller).map_err(|_| Refusal::NoSuchCaller)
    }

    /// Refusal 12: "free cells at the receiver (for new, at w) do not exceed
    /// those booked".
    fn test_room(&self, w: u8) -> Result<(), Refusal> {
        if self.free_cells(w) > self.booked(w) { Ok(()) } else { Err(Refusal::NoFreeCell) }
    }

    /// Refusal 13: "no empty slot where a message is sent". "New messages take
    /// the lowest empty slot."
    fn test_slot(&self) -> Result<u8, Refusal> {
        lowest(&self.slots, Option::is_none).ok_or(Refusal::NoEmptySlot)
    }
}

// --------------------------------------------------------------- the calls

impl State {
    /// One call. A refused call leaves the state as it was, but for a refused
    /// start, which leaves it closed.
    pub fn call(&mut self, call: Call) -> Outcome {
        self.call_with::<true>(call)
    }

    /// As [`State::call`]; the test of soundness can be left out, to measure
    /// what it costs. It may be left out only of a state reached from a start,
    /// which is sound.
    pub fn call_with<const TEST_SOUND: bool>(&mut self, call: Call) -> Outcome {
        // "Every call but the start first tests this".
        let is_start = matches!(call, Call::Start { .. });
        if TEST_SOUND && !is_start && !self.is_sound() {
            return Err(Refusal::NotSound);
        }
        match call {
            Call::Start { p } => self.start(p),
            Call::New { w, caller } => self.new(w, caller),
            Call::Set { w, c, n } => self.set(w, c, n),
            Call::Bind { w, c, x } => self.bind(w, c, x),
            Call::Export { w, c, to } => self.export(w, c, to),
            Call::Indirect { w, c, to } => self.indirect(w, c, to),
            Call::Transfer { w, c, to } => self.transfer(w, c, to),
            Call::Drop { w, c } => self.drop(w, c),
            Call::Read { w, c } => self.read(w, c),
            Call::Ask { w, c } => self.ask(w, c),
            Call::Deliver { s } => self.deliver(s),
            Call::Bound => self.bound(),
        }
    }

    /// "start(P): all free. Value 0." Refused with 1 where "P is 0 or above 8;
    /// returns the closed state".
    fn start(&mut self, p: u8) -> Outcome {
        *self = State::closed();
        if p == 0 || usize::from(p) > WORKERS {
            return Err(Refusal::WorkerCount);
        }
        self.workers = p;
        Ok(Answer::Done(0))
    }

    /// "new(w): lowest free cell becomes VAR. Value: cell." W-201: "`new` takes
    /// a caller number, 0 to 255 [..] Refusals: 16 for a caller above 255, after
    /// 3 and before 12".
    #[allow(clippy::new_ret_no_self, clippy::wrong_self_convention)]
    fn new(&mut self, w: u8, caller: u32) -> Outcome {
        self.test_worker(w)?;
        let caller = State::test_caller(caller)?;
        self.test_room(w)?;

        let c = self.lowest_free_cell(w).ok_or(Refusal::NoFreeCell)?;
        self.set_cell(w, c, Cell::Var { caller });
        Ok(Answer::Done(u32::from(c)))
    }

    /// "set(w, c, n): VAR becomes VAL(n)." W-201: "`set` keeps" the caller.
    fn set(&mut self, w: u8, c: u8, n: u32) -> Outcome {
        self.test_worker(w)?;
        let Cell::Var { caller } = self.test_cell(w, c)? else {
            return Err(Refusal::WrongKind);
        };

        self.set_cell(w, c, Cell::Val { n, caller });
        Ok(Answer::Done(0))
    }

    /// "bind(w, c, x): c is a VAR, the end of x an EX; c becomes a REF to that
    /// end." W-201: "A bind loses the variable's own caller". W-203: "binding to
    /// a known EX makes the cell VAL with that value, exported or not, and names
    /// no EX; the cell keeps its own caller, which amends W-201 for this one
    /// case. [..] Refusal 8 is given only for an EX that is not known."
    fn bind(&mut self, w: u8, c: u8, x: u8) -> Outcome {
        self.test_worker(w)?;
        let cell = self.test_cell(w, c)?;
        self.test_cell(w, x)?;
        let end = self.end(w, x);
        let (Cell::Var { caller }, Cell::Ex(ex)) = (cell, self.cell(w, end)) else {
            return Err(Refusal::WrongKind);
        };
        let bound = match ex.value {
            Value::Known(n) => Cell::Val { n, caller },
            Value::Idle | Value::Reading => {
                if self.entry_naming(w, c).is_some() && !self.safe(w, ex) {
                    return Err(Refusal::Unsafe);
                }
                Cell::Ref(end)
            }
        };

        self.set_cell(w, c, bound);
        Ok(Answer::Done(0))
    }

    /// "export(w, c, to): end VAR or VAL: by location. [..] End EX: by
    /// reference. Half its weight, rounded down, is sent; the rest stays.
    /// Value: slot."
    fn export(&mut self, w: u8, c: u8, to: u8) -> Outcome {
        self.test_receiver(w, to)?;
        self.test_cell(w, c)?;
        let end = self.end(w, c);
        let Cell::Ex(ex) = self.cell(w, end) else {
            // "Its entry, or the lowest free one made untainted".
            return self.by_location(w, end, to, false);
        };
        if ex.weight == 1 {
            return Err(Refusal::WeightOne);
        }
        self.test_room(to)?;
        let slot = self.test_slot()?;

        let half = ex.weight / 2;
        let rest = ex.weight - half;
        self.set_cell(w, end, Cell::Ex(Ex { weight: rest, ..ex }));
        Ok(Answer::Done(
            self.send(
                slot,
                Message::Reference { to, owner: ex.owner, entry: ex.entry, weight: half },
            ),
        ))
    }

    /// "indirect(w, c, to): the end must be an EX; that EX cell is exported by
    /// location. A new entry is tainted if the EX is unsafe. Value: slot."
    fn indirect(&mut self, w: u8, c: u8, to: u8) -> Outcome {
        self.test_receiver(w, to)?;
        self.test_cell(w, c)?;
        let end = self.end(w, c);
        let Cell::Ex(ex) = self.cell(w, end) else {
            return Err(Refusal::WrongKind);
        };
        self.by_location(w, end, to, !self.safe(w, ex))
    }

    /// "by location. Its entry, or the lowest free one made untainted, gains
    /// 1,024; a Reference of 1,024 is sent." An entry that is there keeps its
    /// mark.
    fn by_location(&mut self, w: u8, c: u8, to: u8, new_is_tainted: bool) -> Outcome {
        let (number, entry) = match self.entry_naming(w, c) {
            Some(number) => {
                let entry = self.live_entry(w, number);
                let weight = entry.weight + GAIN;
                if weight > CEILING {
                    return Err(Refusal::Ceiling);
                }
                (number, Entry { weight, ..entry })
            }
            None => {
                let number = self.lowest_free_entry(w).ok_or(Refusal::NoFreeEntry)?;
                let entry = Entry { cell: c, weight: GAIN, tainted: new_is_tainted };
                (number, entry)
            }
        };
        self.test_room(to)?;
        let slot = self.test_slot()?;

        self.set_entry(w, number, Some(entry));
        Ok(Answer::Done(
            self.send(slot, Message::Reference { to, owner: w, entry: number, weight: GAIN }),
        ))
    }

    /// "transfer(w, c, to): c itself an EX, not busy; it is freed and its whole
    /// weight sent as a Reference. Value: slot."
    fn transfer(&mut self, w: u8, c: u8, to: u8) -> Outcome {
        self.test_receiver(w, to)?;
        let Cell::Ex(ex) = self.test_cell(w, c)? else {
            return Err(Refusal::WrongKind);
        };
        self.test_busy(w, c)?;
        self.test_room(to)?;
        let slot = self.test_slot()?;

        self.set_cell(w, c, Cell::Free);
        Ok(Answer::Done(self.send(
            slot,
            Message::Reference { to, owner: ex.owner, entry: ex.entry, weight: ex.weight },
        )))
    }

    /// "drop(w, c): freed. An EX sends its whole weight as Release, value the
    /// slot; any other kind: value 64."
    fn drop(&mut self, w: u8, c: u8) -> Outcome {
        self.test_worker(w)?;
        let cell = self.test_cell(w, c)?;
        self.test_busy(w, c)?;
        let Cell::Ex(ex) = cell else {
            self.set_cell(w, c, Cell::Free);
            return Ok(Answer::Done(NOTHING_SENT));
        };
        let slot = self.test_slot()?;

        self.set_cell(w, c, Cell::Free);
        Ok(Answer::Done(
            self.send(
                slot,
                Message::Release { owner: ex.owner, entry: ex.entry, weight: ex.weight },
            ),
        ))
    }

    /// "read(w, c): end VAL or known: done, value n. VAR: Unbound. Reading:
    /// Waiting. Else a Read is sent and the EX is reading: Sent, value the
    /// slot."
    fn read(&mut self, w: u8, c: u8) -> Outcome {
        self.test_worker(w)?;
        self.test_cell(w, c)?;
        let end = self.end(w, c);
        let ex = match self.cell(w, end) {
            Cell::Val { n, .. } => return Ok(Answer::Done(n)),
            Cell::Var { .. } => return Ok(Answer::Unbound),
            Cell::Ex(ex) => ex,
            Cell::Free | Cell::Ref(_) => unreachable!("point 2: a REF names an EX"),
        };
        match ex.value {
            Value::Known(n) => return Ok(Answer::Done(n)),
            Value::Reading => return Ok(Answer::Waiting),
            Value::Idle => {}
        }
        let slot = self.test_slot()?;

        let value = Value::Reading;
        self.set_cell(w, end, Cell::Ex(Ex { value, ..ex }));
        Ok(Answer::Sent(
            self.send(
                slot,
                Message::Read { reader: w, cell: end, owner: ex.owner, entry: ex.entry },
            ),
        ))
    }

    /// "ask(w, c): end an EX. Asking already: Waiting. Else Ask is sent: Sent,
    /// value the slot."
    fn ask(&mut self, w: u8, c: u8) -> Outcome {
        self.test_worker(w)?;
        self.test_cell(w, c)?;
        let end = self.end(w, c);
        let Cell::Ex(ex) = self.cell(w, end) else {
            return Err(Refusal::WrongKind);
        };
        if ex.asking {
            return Ok(Answer::Waiting);
        }
        let slot = self.test_slot()?;

        let asking = true;
        self.set_cell(w, end, Cell::Ex(Ex { asking, ..ex }));
        Ok(Answer::Sent(
            self.send(slot, Message::Ask { asker: w, cell: end, owner: ex.owner, entry: ex.entry }),
        ))
    }

    /// "bound: value B, the sum of 1 for each Reference, Release, Answer and
    /// Supply, 2 for each Ask, and E + 1 for each Read, E the number of live
    /// entries."
    fn bound(&self) -> Outcome {
        let live_entries = self.live_entries();
        let sum: usize = self
            .messages()
            .map(|message| match message {
                Message::Reference { .. }
                | Message::Release { .. }
                | Message::Answer { .. }
                | Message::Supply { .. } => 1,
                Message::Ask { .. } => 2,
                Message::Read { .. } => live_entries + 1,
            })
            .sum();
        Ok(Answer::Done(sum as u32))
    }

    /// Puts a message in a slot found empty. The slot, as a value.
    fn send(&mut self, slot: u8, message: Message) -> u32 {
        self.slots[usize::from(slot)] = Some(message);
        u32::from(slot)
    }
}

// ---------------------------------------------------------------- deliver

impl State {
    /// "A read is ready unless the end of its entry's cell is a VAR; all other
    /// messages are ready."
    pub fn ready(&self, message: Message) -> bool {
        match message {
            Message::Read { owner, entry, .. } => {
                let cell = self.live_entry(owner, entry).cell;
                !matches!(self.end_cell(owner, cell), Cell::Var { .. })
            }
            _ => true,
        }
    }

    /// "deliver(s), any successor in the same slot, which otherwise becomes
    /// empty".
    fn deliver(&mut self, s: u8) -> Outcome {
        let held = self.slots.get(usize::from(s)).copied().flatten();
        let message = held.ok_or(Refusal::NoSuchMessage)?;
        if !self.ready(message) {
            return Err(Refusal::NotReady);
        }

        let (successor, value) = match message {
            Message::Reference { to, owner, entry, weight } => {
                (None, self.deliver_reference(to, owner, entry, weight))
            }
            Message::Release { owner, entry, weight } => {
                // "Release: weight taken off, entry freed at 0. Value 0."
                self.take_off(owner, entry, weight);
                (None, 0)
            }
            Message::Read { reader, cell, owner, entry } => {
                (Some(self.deliver_read(reader, cell, owner, entry)), 0)
            }
            Message::Answer { reader, cell, n } => {
                // "Answer: the EX is known with n. Value: cell."
                let ex = self.ex(reader, cell);
                let value = Value::Known(n);
                self.set_cell(reader, cell, Cell::Ex(Ex { value, ..ex }));
                (None, cell)
            }
            Message::Ask { asker, cell, owner, entry: number } => {
                // "Ask: the entry gains the smaller of 1,024 and what is left
                // below the ceiling, perhaps 0; becomes Supply. Value 0."
                let entry = self.live_entry(owner, number);
                let gain = GAIN.min(CEILING - entry.weight);
                let weight = entry.weight + gain;
                self.set_entry(owner, number, Some(Entry { weight, ..entry }));
                let supply = Message::Supply { asker, cell, weight: gain };
                (Some(supply), 0)
            }
            Message::Supply { asker, cell, weight } => {
                // "Supply: weight added, no longer asking. Value: cell."
                let ex = self.ex(asker, cell);
                let supplied = Ex { weight: ex.weight + weight, asking: false, ..ex };
                self.set_cell(asker, cell, Cell::Ex(supplied));
                (None, cell)
            }
        };
        self.slots[usize::from(s)] = successor;
        Ok(Answer::Done(u32::from(value)))
    }

    /// "Reference: at the owner, the weight is taken off the entry (freed at
    /// 0), value its cell. Elsewhere it joins the EX naming that entry, or the
    /// lowest free cell becomes such an EX, idle. Value: cell."
    fn deliver_reference(&mut self, to: u8, owner: u8, entry: u8, weight: u32) -> u8 {
        if to == owner {
            let cell = self.live_entry(owner, entry).cell;
            self.take_off(owner, entry, weight);
            return cell;
        }
        match self.ex_naming(to, (owner, entry)) {
            Some(c) => {
                let ex = self.ex(to, c);
                let weight = ex.weight + weight;
                self.set_cell(to, c, Cell::Ex(Ex { weight, ..ex }));
                c
            }
            None => {
                let c =
                    self.lowest_free_cell(to).expect("point 6: a cell is free for what is booked");
                let ex = Ex { owner, entry, weight, value: Value::Idle, asking: false };
                self.set_cell(to, c, Cell::Ex(ex));
                c
            }
        }
    }

    /// "Read: end of the entry's cell VAL or known: becomes Answer. An EX not
    /// known: becomes a Read of what it names." What the Read becomes.
    fn deliver_read(&self, reader: u8, cell: u8, owner: u8, entry: u8) -> Message {
        match self.end_cell(owner, self.live_entry(owner, entry).cell) {
            Cell::Val { n, .. } | Cell::Ex(Ex { value: Value::Known(n), .. }) => {
                Message::Answer { reader, cell, n }
            }
            Cell::Ex(ex) => Message::Read { reader, cell, owner: ex.owner, entry: ex.entry },
            Cell::Free | Cell::Var { .. } | Cell::Ref(_) => {
                unreachable!("points 2 and 3: the read is ready")
            }
        }
    }

    /// Weight taken off an entry, which is "freed at 0".
    fn take_off(&mut self, owner: u8, number: u8, weight: u32) {
        let entry = self.live_entry(owner, number);
        let left = entry.weight - weight;
        let holds = (left > 0).then_some(Entry { weight: left, ..entry });
        self.set_entry(owner, number, holds);
    }
}

// ---------------------------------------------------------- the cost report

/// W-202: "charges, each a worker, a cell and a signed 32-bit amount;
/// corrections are negative." The worker and the cell may be any numbers.
#[derive(Clone, Copy, Debug, PartialEq, Eq)]
#[allow(missing_docs)]
pub struct Charge {
    pub worker: u8,
    pub cell: u8,
    pub amount: i32,
}

/// W-202: "The report gives 256 signed 64-bit totals, the unplaced total, and
/// how many charges were placed and how many unplaced."
#[derive(Clone, Debug, PartialEq, Eq)]
pub struct Report {
    /// Done, with value 0, or refused.
    pub outcome: Outcome,
    /// The total of each caller, 0 to 255.
    pub totals: [i64; 256],
    /// The total of the charges that are unplaced.
    pub unplaced: i64,
    /// How many charges were placed.
    pub placed: u32,
    /// How many charges were unplaced.
    pub missed: u32,
}

impl Report {
    /// A report in which "all totals and both numbers of charges" are 0.
    fn zeros(outcome: Outcome) -> Report {
        Report { outcome, totals: [0; 256], unplaced: 0, placed: 0, missed: 0 }
    }
}

impl State {
    /// W-202: "A charge belongs to the caller found by following ends and
    /// references from its cell to a VAR or VAL." `None` where a charge on the
    /// cell is unplaced. The state is sound, the numbers may be any.
    pub fn payer(&self, worker: u8, cell: u8) -> Option<u8> {
        // "A charge whose worker or cell number is out of range, or whose cell
        // is free, is unplaced": what other calls refuse with 3 and 5.
        self.test_worker(worker).ok()?;
        self.test_cell(worker, cell).ok()?;

        // "so is one whose chain has not reached a VAR or VAL after as many
        // references as there are live entries". One that reaches it with the
        // last of these is placed.
        let mut left = self.live_entries();
        let (mut w, mut c) = (worker, cell);
        loop {
            match self.end_cell(w, c) {
                Cell::Var { caller } | Cell::Val { caller, .. } => return Some(caller),
                Cell::Ex(_) if left == 0 => return None,
                Cell::Ex(ex) => {
                    // An EX is followed whether or not its value is known.
                    left -= 1;
                    (w, c) = (ex.owner, self.live_entry(ex.owner, ex.entry).cell);
                }
                Cell::Free | Cell::Ref(_) => {
                    unreachable!("points 2 and 3: what is named is not free, a REF names an EX")
                }
            }
        }
    }

    /// W-202: "Input is any state and a lent list of charges". "An empty list
    /// gives zeros. Refusals: 2; then 17 for a longer list; both leave all
    /// totals and both numbers of charges 0."
    pub fn report(&self, charges: &[Charge]) -> Report {
        if !self.is_sound() {
            return Report::zeros(Err(Refusal::NotSound));
        }
        if charges.len() > MOST_CHARGES {
            return Report::zeros(Err(Refusal::TooManyCharges));
        }

        let mut report = Report::zeros(Ok(Answer::Done(0)));
        for charge in charges {
            let amount = i64::from(charge.amount);
            match self.payer(charge.worker, charge.cell) {
                Some(caller) => {
                    report.totals[usize::from(caller)] += amount;
                    report.placed += 1;
                }
                None => {
                    report.unplaced += amount;
                    report.missed += 1;
                }
            }
        }
        report
    }
}

// ------------------------------------------------------- the text program

/// "one frame a line, 16 lower-case hexadecimal digits: call, three bytes, a
/// 32-bit number, high byte first." `None` is a line that is not a frame.
pub fn decode(line: &[u8]) -> Option<Call> {
    let digits: &[u8; 16] = line.try_into().ok()?;
    let mut bytes = [0; 8];
    for (byte, pair) in bytes.iter_mut().zip(digits.chunks_exact(2)) {
        *byte = digit(pair[0])? * 16 + digit(pair[1])?;
    }
    let [call, first, second, third, n @ ..] = bytes;
    let n = u32::from_be_bytes(n);

    // "The bytes are the call's arguments in order, n is the number, and a byte
    // or number not used must be 0." W-201: the caller is "in the frame's 32-bit
    // field [..] `new` no longer demands a zero number."
    match (call, first, second, third, n) {
        (0x01, p, 0, 0, 0) => Some(Call::Start { p }),
        (0x02, w, 0, 0, caller) => Some(Call::New { w, caller }),
        (0x03, w, c, 0, n) => Some(Call::Set { w, c, n }),
        (0x04, w, c, x, 0) => Some(Call::Bind { w, c, x }),
        (0x05, w, c, to, 0) => Some(Call::Export { w, c, to }),
        (0x06, w, c, to, 0) => Some(Call::Indirect { w, c, to }),
        (0x07, w, c, to, 0) => Some(Call::Transfer { w, c, to }),
        (0x08, w, c, 0, 0) => Some(Call::Drop { w, c }),
        (0x09, w, c, 0, 0) => Some(Call::Read { w, c }),
        (0x0a, w, c, 0, 0) => Some(Call::Ask { w, c }),
        (0x0b, s, 0, 0, 0) => Some(Call::Deliver { s }),
        (0x0c, 0, 0, 0, 0) => Some(Call::Bound),
        _ => None,
    }
}

/// The frame of a call: 16 digits, without a newline.
pub fn encode(call: Call) -> [u8; 16] {
    let (number, [first, second, third], n) = match call {
        Call::Start { p } => (0x01, [p, 0, 0], 0),
        Call::New { w, caller } => (0x02, [w, 0, 0], caller),
        Call::Set { w, c, n } => (0x03, [w, c, 0], n),
        Call::Bind { w, c, x } => (0x04, [w, c, x], 0),
        Call::Export { w, c, to } => (0x05, [w, c, to], 0),
        Call::Indirect { w, c, to } => (0x06, [w, c, to], 0),
        Call::Transfer { w, c, to } => (0x07, [w, c, to], 0),
        Call::Drop { w, c } => (0x08, [w, c, 0], 0),
        Call::Read { w, c } => (0x09, [w, c, 0], 0),
        Call::Ask { w, c } => (0x0a, [w, c, 0], 0),
        Call::Deliver { s } => (0x0b, [s, 0, 0], 0),
        Call::Bound => (0x0c, [0, 0, 0], 0),
    };
    let mut frame = [0; 16];
    frame[..2].copy_from_slice(&two_digits(number));
    frame[2..4].copy_from_slice(&two_digits(first));
    frame[4..6].copy_from_slice(&two_digits(second));
    frame[6..8].copy_from_slice(&two_digits(third));
    frame[8..].copy_from_slice(&eight_digits(n));
    frame
}

/// "10 digits: code (00 done, 01 to 0f refused, by number, later numbers
/// likewise, 40 Sent, 41 Waiting, 42 Unbound, ff not a frame) and value."
/// `None` is a line that is not a frame.
pub fn code_and_value(outcome: Option<Outcome>) -> (u8, u32) {
    match outcome {
        Some(Ok(Answer::Done(value))) => (0x00, value),
        Some(Ok(Answer::Sent(value))) => (0x40, value),
        Some(Ok(Answer::Waiting)) => (0x41, 0),
        Some(Ok(Answer::Unbound)) => (0x42, 0),
        Some(Err(refusal)) => (refusal.number(), 0),
        None => (0xff, 0),
    }
}

/// The text program: what it prints for an input.
pub fn run_text(input: &[u8]) -> Vec<u8> {
    run_text_with::<true>(input)
}

/// As [`run_text`]; the test of soundness before each call can be left out, to
/// measure what it costs.
pub fn run_text_with<const TEST_SOUND: bool>(input: &[u8]) -> Vec<u8> {
    // "Input is at most 65,536 bytes; of a longer one nothing is run and the
    // single line ffffffffff is printed."
    if input.len() > LONGEST_INPUT {
        return TOO_LONG.to_vec();
    }
    // "an empty input prints nothing."
    if input.is_empty() {
        return Vec::new();
    }
    // "A last line may lack its newline".
    let text = input.strip_suffix(b"\n").unwrap_or(input);

    // "The program begins closed."
    let mut state = State::closed();
    let mut output = Vec::with_capacity(input.len());
    for line in text.split(|byte| *byte == b'\n') {
        // "Any other line, an empty one too, gives ff00000000 and changes
        // nothing."
        let outcome = decode(line).map(|call| state.call_with::<TEST_SOUND>(call));
        let (code, value) = code_and_value(outcome);
        // "Output: one line a frame, each ended by a newline, 10 digits".
        output.extend_from_slice(&two_digits(code));
        output.extend_from_slice(&eight_digits(value));
        output.push(b'\n');
    }
    output
}

/// A lower-case hexadecimal digit.
fn digit(byte: u8) -> Option<u8> {
    match byte {
        b'0'..=b'9' => Some(byte - b'0'),
        b'a'..=b'f' => Some(byte - b'a' + 10),
        _ => None,
    }
}

fn two_digits(byte: u8) -> [u8; 2] {
    const DIGITS: &[u8; 16] = b"0123456789abcdef";
    [DIGITS[usize::from(byte >> 4)], DIGITS[usize::from(byte & 15)]]
}

/// "a 32-bit number, high byte first."
fn eight_digits(number: u32) -> [u8; 8] {
    let mut digits = [0; 8];
    for (pair, byte) in digits.chunks_exact_mut(2).zip(number.to_be_bytes()) {
        pair.copy_from_slice(&two_digits(byte));
    }
    digits
}

impl fmt::Display for Call {
    /// The call with its arguments in order, as in `export(0, 3, 1)`.
    fn fmt(&self, f: &mut fmt::Formatter<'_>) -> fmt::Result {
        match *self {
            Call::Start { p } => write!(f, "start({p})"),
            Call::New { w, caller } => write!(f, "new({w}, {caller})"),
            Call::Set { w, c, n } => write!(f, "set({w}, {c}, {n})"),
            Call::Bind { w, c, x } => write!(f, "bind({w}, {c}, {x})"),
            Call::Export { w, c, to } => write!(f, "export({w}, {c}, {to})"),
            Call::Indirect { w, c, to } => write!(f, "indirect({w}, {c}, {to})"),
            Call::Transfer { w, c, to } => write!(f, "transfer({w}, {c}, {to})"),
            Call::Drop { w, c } => write!(f, "drop({w}, {c})"),
            Call::Read { w, c } => write!(f, "read({w}, {c})"),
            Call::Ask { w, c } => write!(f, "ask({w}, {c})"),
            Call::Deliver { s } => write!(f, "deliver({s})"),
            Call::Bound => write!(f, "bound"),
        }
    }
}
