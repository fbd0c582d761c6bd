//! The layers `model` and `oracle` against waymaker-fault's model.rs and oracle.rs: what a ledger answers, and the verdict
//! on a recovery, with every value.

use crate::common::{self, Comparison, Difference, Input, Layer, Random, bench_row, cuts, smaller_numbers, without};
use waymaker_fault::model::{Durability, Ledger, RecordId};
use waymaker_fault::oracle::{Breach, Recovery, verify_oracle, verify_recovery};

pub const LAYER: Layer = Layer { name: "oracle", compare, bench, sample };

// crates/oracle_exported/src/lib.rt. Nothing proves that these declarations are those of that file: this is what is
// trusted here. A slice crosses as a pointer, then a length; an array as a pointer.
#[rustfmt::skip]
unsafe extern "C" {
    fn oracle_verify_oracle(
        ids: *const u32, ids_len: usize, states: *const u8, states_len: usize, torn: *const u8, torn_len: usize,
        history: *const u32, history_len: usize, dispatched: *const u32, dispatched_len: usize,
        counted: bool, count: u64, reply: &mut Cells,
    );
    fn oracle_verify_recovery(
        ids: *const u32, ids_len: usize, states: *const u8, states_len: usize, torn: *const u8, torn_len: usize,
        history: *const u32, history_len: usize, reply: &mut Cells,
    );
    fn model_state(
        ids: *const u32, ids_len: usize, states: *const u8, states_len: usize, torn: *const u8, torn_len: usize,
        id: u32, reply: &mut Told,
    );
    fn model_torn(
        ids: *const u32, ids_len: usize, states: *const u8, states_len: usize, torn: *const u8, torn_len: usize,
        id: u32, reply: &mut Told,
    );
    fn model_committed(
        ids: *const u32, ids_len: usize, states: *const u8, states_len: usize, torn: *const u8, torn_len: usize,
        column: *mut u32, column_len: usize, reply: &mut Told,
    );
    fn model_acknowledged(
        ids: *const u32, ids_len: usize, states: *const u8, states_len: usize, torn: *const u8, torn_len: usize,
        column: *mut u32, column_len: usize, reply: &mut Told,
    );
    fn model_len(
        ids: *const u32, ids_len: usize, states: *const u8, states_len: usize, torn: *const u8, torn_len: usize,
        reply: &mut Told,
    );
}

/// A verdict: document 01's number, then for each of up to three values whether there is one, and the value.
type Cells = [u64; 7];

/// What a ledger answers: a refusal's number, or 0, then whether there is a value, and the value.
type Told = [u64; 3];

/// What stands in a place before it is written.
const UNWRITTEN: u32 = 0xDEAD_BEEF;
const NO_CELLS: Cells = [u64::MAX; 7];
const NOT_TOLD: Told = [u64::MAX; 3];

/// A ledger as three columns. Only columns of one length, with states up to 2 and torn up to 1, hold one.
#[derive(Clone, Debug, Default)]
struct Columns {
    ids: Vec<u32>,
    states: Vec<u8>,
    torn: Vec<u8>,
}

impl Columns {
    fn push(&mut self, id: u32, state: u8, torn: u8) {
        self.ids.push(id);
        self.states.push(state);
        self.torn.push(torn);
    }

    /// The Rust's ledger, or none: unequal columns and codes without a meaning cannot be written in its types.
    fn ledger(&self) -> Option<Ledger> {
        if self.states.len() != self.ids.len() || self.torn.len() != self.ids.len() {
            return None;
        }
        let mut entries = Vec::with_capacity(self.ids.len());
        for ((&id, &state), &torn) in self.ids.iter().zip(&self.states).zip(&self.torn) {
            let state = match state {
                0 => Durability::Attempted,
                1 => Durability::PossiblyDurable,
                2 => Durability::Acknowledged,
                _ => return None,
            };
            if torn > 1 {
                return None;
            }
            entries.push((RecordId(id), state, torn == 1));
        }
        Some(Ledger::new(entries))
    }

    /// With fewer rows, smaller codes, or columns more nearly equal.
    fn smaller(&self) -> Vec<Self> {
        let mut found = Vec::new();
        let rows = self.ids.len().max(self.states.len()).max(self.torn.len());
        for (from, to) in cuts(rows) {
            found.push(Self {
                ids: without(&self.ids, from, to),
                states: without(&self.states, from, to),
                torn: without(&self.torn, from, to),
            });
        }
        for row in 0..self.states.len() {
            for less in smaller_numbers(self.states[row].into()) {
                let mut columns = self.clone();
                columns.states[row] = less as u8;
                found.push(columns);
            }
        }
        for row in 0..self.torn.len() {
            for less in smaller_numbers(self.torn[row].into()) {
                let mut columns = self.clone();
                columns.torn[row] = less as u8;
                found.push(columns);
            }
        }
        found
    }
}

/// Ids, and what each may become. It is put wherever the id stands, so that what was equal stays equal.
fn smaller_ids(mut ids: Vec<u32>) -> Vec<(u32, u32)> {
    ids.sort_unstable();
    ids.dedup();
    ids.iter().flat_map(|&id| smaller_numbers(id).into_iter().map(move |less| (id, less))).collect()
}

/// A ledger, and what a recovery produced.
#[derive(Clone, Debug, Default)]
struct Case {
    columns: Columns,
    history: Vec<u32>,
    dispatched: Vec<u32>,
    banks: Option<u64>,
}

impl Case {
    /// Every place that holds an id.
    fn places(&mut self) -> impl Iterator<Item = &mut u32> {
        self.columns.ids.iter_mut().chain(&mut self.history).chain(&mut self.dispatched)
    }
}

impl Input for Case {
    fn smaller(&self) -> Vec<Self> {
        let mut found: Vec<Self> =
            self.columns.smaller().into_iter().map(|columns| Self { columns, ..self.clone() }).collect();
        for (from, to) in cuts(self.history.len()) {
            found.push(Self { history: without(&self.history, from, to), ..self.clone() });
        }
        for (from, to) in cuts(self.dispatched.len()) {
            found.push(Self { dispatched: without(&self.dispatched, from, to), ..self.clone() });
        }
        if let Some(count) = self.banks {
            let counts = [None, Some(0), Some(count / 2), count.checked_sub(1)];
            let less = counts.into_iter().filter(|less| less.is_none_or(|less| less < count));
            found.extend(less.map(|banks| Self { banks, ..self.clone() }));
        }
        for (id, less) in smaller_ids(self.clone().places().map(|id| *id).collect()) {
            let mut case = self.clone();
            case.places().filter(|place| **place == id).for_each(|place| *place = less);
            found.push(case);
        }
        found
    }
}

/// A verdict's cells.
#[derive(PartialEq, Debug)]
struct Verdict(Cells);

impl common::Answer for Verdict {
    fn number(&self) -> u32 {
        self.0[0] as u32
    }
}

fn code_of(state: Durability) -> u64 {
    match state {
        Durability::Attempted => 0,
        Durability::PossiblyDurable => 1,
        Durability::Acknowledged => 2,
    }
}

fn one(number: u64, value: u64) -> Cells {
    [number, 1, value, 0, 0, 0, 0]
}

/// The number of a verdict.
pub fn number_of(answer: Result<(), Breach>) -> u64 {
    cells_of(answer)[0]
}

fn cells_of(answer: Result<(), Breach>) -> Cells {
    let Err(breach) = answer else { return [0; 7] };
    match breach {
        Breach::DuplicateRecordId { record } => one(31, record.0.into()),
        Breach::NotAPrefix { position, expected, found } => {
            let position = position as u64;
            let (present, expected) = expected.map_or((0, 0), |id| (1, id.0.into()));
            [32, 1, position, present, expected, 1, found.0.into()]
        }
        Breach::RecoveredWhatWasNeverAttempted { record } => one(33, record.0.into()),
        Breach::RecoveredATornRecord { record } => one(34, record.0.into()),
        Breach::LostAnAcknowledgedRecord { record } => one(35, record.0.into()),
        Breach::DispatchedWithoutADurableIntent { intent } => one(36, intent.0.into()),
        Breach::NoAuthoritativeBank => [37, 0, 0, 0, 0, 0, 0],
        Breach::AmbiguousAuthority { count } => one(38, count as u64),
    }
}

/// What is held against columns that the Rust cannot express.
const REFUSED: Cells = [12, 0, 0, 0, 0, 0, 0];

fn records(ids: &[u32]) -> Vec<RecordId> {
    ids.iter().copied().map(RecordId).collect()
}

fn rust_verdict(case: &Case) -> Verdict {
    let Some(ledger) = case.columns.ledger() else { return Verdict(REFUSED) };
    let (history, dispatched) = (records(&case.history), records(&case.dispatched));
    let mut recovery = Recovery::new(&history).dispatched(&dispatched);
    if let Some(count) = case.banks {
        recovery = recovery.authoritative_banks(count as usize);
    }
    Verdict(cells_of(verify_oracle(&ledger, &recovery)))
}

fn our_cells(case: &Case) -> Cells {
    let Case { columns: Columns { ids, states, torn }, history, dispatched, banks } = case;
    let mut cells = NO_CELLS;
    // SAFETY: each pointer goes with its list's length, and only `cells`, which nothing else uses, is written.
    unsafe {
        oracle_verify_oracle(
            ids.as_ptr(),
            ids.len(),
            states.as_ptr(),
            states.len(),
            torn.as_ptr(),
            torn.len(),
            history.as_ptr(),
            history.len(),
            dispatched.as_ptr(),
            dispatched.len(),
            banks.is_some(),
            banks.unwrap_or(0),
            &mut cells,
        );
    }
    cells
}

fn our_verdict(case: &Case) -> Verdict {
    Verdict(our_cells(case))
}

/// Without what was dispatched and the bank count.
fn rust_recovery(case: &Case) -> Verdict {
    let Some(ledger) = case.columns.ledger() else { return Verdict(REFUSED) };
    Verdict(cells_of(verify_recovery(&ledger, &records(&case.history))))
}

fn our_recovery(case: &Case) -> Verdict {
    let Case { columns: Columns { ids, states, torn }, history, .. } = case;
    let mut cells = NO_CELLS;
    // SAFETY: as in `our_cells`.
    unsafe {
        oracle_verify_recovery(
            ids.as_ptr(),
            ids.len(),
            states.as_ptr(),
            states.len(),
            torn.as_ptr(),
            torn.len(),
            history.as_ptr(),
            history.len(),
            &mut cells,
        );
    }
    Verdict(cells)
}

/// What is asked of a ledger: about one id, and with a column of so much room.
#[derive(Clone, Debug)]
struct Question {
    columns: Columns,
    id: u32,
    room: usize,
}

impl Input for Question {
    fn smaller(&self) -> Vec<Self> {
        let mut found: Vec<Self> =
            self.columns.smaller().into_iter().map(|columns| Self { columns, ..self.clone() }).collect();
        found.extend(
            smaller_numbers(self.room as u32).into_iter().map(|room| Self { room: room as usize, ..self.clone() }),
        );
        for (id, less) in smaller_ids([&self.columns.ids[..], &[self.id]].concat()) {
            let mut question = self.clone();
            let places = question.columns.ids.iter_mut().chain([&mut question.id]);
            places.filter(|place| **place == id).for_each(|place| *place = less);
            found.push(question);
        }
        found
    }
}

/// Every answer of a ledger, with the lent columns as they were left.
#[derive(PartialEq, Debug)]
struct Answers {
    state: Told,
    torn: Told,
    committed: (Told, Vec<u32>),
    acknowledged: (Told, Vec<u32>),
    len: Told,
}

impl common::Answer for Answers {
    fn number(&self) -> u32 {
        self.committed.0[0] as u32
    }
}

/// The ids at the front of a column, if it has room for them: a `Vec` always has, so 13 is held against one that has not.
fn written(ids: impl Iterator<Item = RecordId>, room: usize) -> (Told, Vec<u32>) {
    let ids: Vec<u32> = ids.map(|id| id.0).collect();
    let mut column = vec![UNWRITTEN; room];
    if room < ids.len() {
        return ([13, 0, 0], column);
    }
    column[..ids.len()].copy_from_slice(&ids);
    ([0, 1, ids.len() as u64], column)
}

fn rust_answers(question: &Question) -> Answers {
    let &Question { ref columns, id, room } = question;
    let Some(ledger) = columns.ledger() else {
        let refused = [12, 0, 0];
        let left = || (refused, vec![UNWRITTEN; room]);
        return Answers { state: refused, torn: refused, committed: left(), acknowledged: left(), len: refused };
    };
    Answers {
        state: ledger.state(RecordId(id)).map_or([0, 0, 0], |state| [0, 1, code_of(state)]),
        torn: ledger.torn(RecordId(id)).map_or([0, 0, 0], |torn| [0, 1, torn.into()]),
        committed: written(ledger.committed(), room),
        acknowledged: written(ledger.acknowledged(), room),
        len: [0, 1, ledger.len() as u64],
    }
}

fn our_answers(question: &Question) -> Answers {
    let &Question { columns: Columns { ref ids, ref states, ref torn }, id, room } = question;
    let (i, i_len, s, s_len, t, t_len) =
        (ids.as_ptr(), ids.len(), states.as_ptr(), states.len(), torn.as_ptr(), torn.len());
    let left = || (NOT_TOLD, vec![UNWRITTEN; room]);
    let mut answers =
        Answers { state: NOT_TOLD, torn: NOT_TOLD, committed: left(), acknowledged: left(), len: NOT_TOLD };
    let (committed, acknowledged) = (&mut answers.committed, &mut answers.acknowledged);
    // SAFETY: each pointer goes with its list's length, and only the answers, which nothing else uses, are written.
    unsafe {
        model_state(i, i_len, s, s_len, t, t_len, id, &mut answers.state);
        model_torn(i, i_len, s, s_len, t, t_len, id, &mut answers.torn);
        model_committed(i, i_len, s, s_len, t, t_len, committed.1.as_mut_ptr(), room, &mut committed.0);
        model_acknowledged(i, i_len, s, s_len, t, t_len, acknowledged.1.as_mut_ptr(), room, &mut acknowledged.0);
        model_len(i, i_len, s, s_len, t, t_len, &mut answers.len);
    }
    answers
}

/// From this size on, every small ledger and history meets every small list of dispatched ids and every bank count.
const WHOLE: u64 = 10_000_000;

fn compare(comparison: &mut Comparison) -> Result<(), Difference> {
    small(comparison)?;
    at_blocks(comparison)?;
    bad_columns(comparison)?;
    for _ in 0..comparison.size {
        let case = random_case(&mut comparison.random);
        comparison.same(&case, rust_verdict, our_verdict)?;
        if comparison.random.below(4) == 0 {
            let question = random_question(&mut comparison.random, case.columns);
            comparison.same(&question, rust_answers, our_answers)?;
        }
    }
    Ok(())
}

/// Every list of up to `most` numbers below `end`.
fn lists(most: usize, end: u32) -> Vec<Vec<u32>> {
    let mut found = vec![Vec::new()];
    let mut longest = found.clone();
    for _ in 0..most {
        longest = longest.iter().flat_map(|list| (0..end).map(|n| [list, &[n][..]].concat())).collect();
        found.extend_from_slice(&longest);
    }
    found
}

/// Every ledger of up to `most` entries, each with an id below `end`, any state and any torn mark.
fn ledgers(most: usize, end: u32) -> Vec<Columns> {
    let mut found = Vec::new();
    for list in lists(most, end * 6) {
        let mut columns = Columns::default();
        for code in list {
            columns.push(code / 6, (code / 2 % 3) as u8, (code % 2) as u8);
        }
        found.push(columns);
    }
    found
}

/// Every ledger of up to three entries with ids below 3, and every history of up to three ids below 4; with each pair every
/// bank count up to 2, and a list of up to two dispatched ids below 4, or, in a whole run, every such list. The ledger's own
/// answers, for every id below 4 and a column of any room up to 4.
fn small(comparison: &mut Comparison) -> Result<(), Difference> {
    let (histories, dispatched) = (lists(3, 4), lists(2, 4));
    let banks = [None, Some(0), Some(1), Some(2)];
    let mut turn = 0;
    for columns in ledgers(3, 3) {
        for place in 0..4 * 5 {
            let question = Question { columns: columns.clone(), id: place / 5, room: place as usize % 5 };
            comparison.same(&question, rust_answers, our_answers)?;
        }
        let mut case = Case { columns, ..Case::default() };
        for history in &histories {
            case.history.clone_from(history);
            case.dispatched.clear();
            case.banks = None;
            comparison.same(&case, rust_recovery, our_recovery)?;
            // Otherwise one list with each pair, in turn: 85 histories go four times through the 21 lists and one further, so
            // that a history meets another list with the next ledger.
            let whole = comparison.size >= WHOLE;
            let met = if whole { 0..dispatched.len() } else { turn..turn + 1 };
            turn = (turn + 1) % dispatched.len();
            for list in &dispatched[met] {
                case.dispatched.clone_from(list);
                for count in banks {
                    case.banks = count;
                    comparison.same(&case, rust_verdict, our_verdict)?;
                }
            }
        }
    }
    Ok(())
}

/// Ids are sought by blocks of 32: around one, two and three blocks, one thing is wrong at each place.
fn at_blocks(comparison: &mut Comparison) -> Result<(), Difference> {
    for len in [1, 2, 31, 32, 33, 34, 63, 64, 65, 66, 95, 96, 97] {
        let mut whole = Case::default();
        for row in 0..len {
            whole.columns.push(7 * row, 2, 0);
            whole.history.push(7 * row);
        }
        whole.dispatched.clone_from(&whole.history);
        for place in 0..len as usize {
            let mut cases = vec![whole.clone(); 9];
            cases[0].columns.ids[place] = 0;
            cases[1].columns.ids[place] = 7 * (len - 1);
            cases[2].columns.states[place] = 0;
            cases[3].columns.torn[place] = 1;
            cases[4].history[place] = 1;
            cases[5].history.truncate(place);
            cases[6].dispatched[place] = 3;
            cases[7].columns.states.fill(1);
            cases[7].history.truncate(place);
            cases[8].history.push(whole.history[place]);
            for case in cases {
                comparison.same(&case, rust_verdict, our_verdict)?;
            }
        }
    }
    Ok(())
}

/// Mostly columns that hold no ledger: every three lengths up to 3, and in up to 3 rows at each row every code from 2 on.
fn bad_columns(comparison: &mut Comparison) -> Result<(), Difference> {
    let mut bad = Vec::new();
    for place in 0..4 * 4 * 4 {
        let (ids, states, torn) = (place / 16, place / 4 % 4, place % 4);
        bad.push(Columns { ids: (0..ids).collect(), states: vec![2; states as usize], torn: vec![0; torn as usize] });
    }
    for len in 1..=3 {
        for row in 0..len {
            for code in 2..=u8::MAX {
                let ids: Vec<u32> = (0..len as u32).collect();
                let mut columns = Columns { ids, states: vec![1; len], torn: vec![0; len] };
                columns.torn[row] = code;
                bad.push(columns.clone());
                columns.torn[row] = 1;
                columns.states[row] = code;
                bad.push(columns);
            }
        }
    }
    for columns in bad {
        comparison.same(&Question { columns: columns.clone(), id: 0, room: 3 }, rust_answers, our_answers)?;
        let case = Case { columns, history: vec![0, 1], dispatched: vec![5], banks: Some(0) };
        comparison.same(&case, rust_verdict, our_verdict)?;
        comparison.same(&case, rust_recovery, our_recovery)?;
    }
    Ok(())
}

/// Up to 40 entries, now and then up to 200. Mostly a legal recovery, or one to three changes away from it: nearly all that
/// is taken blindly answers 31 or 32.
fn random_case(random: &mut Random) -> Case {
    let most = if random.below(64) == 0 { 201 } else { 41 };
    let len = random.below(most) as usize;
    let mut case = legal_case(random, len);
    for _ in 0..random.pick(&[0, 1, 1, 1, 2, 3]) {
        change(random, &mut case);
    }
    case
}

/// A recovery that breaks no rule: ids that differ, the first rows committed and not torn, a history of at least those.
fn legal_case(random: &mut Random, len: usize) -> Case {
    let mut ids: Vec<u32> = match random.below(3) {
        0 => (0..len as u32).collect(),
        1 => (0..len as u32).map(|row| u32::MAX - row).collect(),
        _ => (0..len as u32).map(|row| (row << 16) + random.below(1 << 16)).collect(),
    };
    for row in (1..len).rev() {
        ids.swap(row, random.below(row as u32 + 1) as usize);
    }
    let recovered = random.below(len as u32 + 1) as usize;
    let mut case = Case::default();
    for (row, &id) in ids.iter().enumerate() {
        // What is not recovered is not acknowledged; what is recovered is not torn, and an attempted row is passed over.
        let (state, torn) = if row < recovered {
            (random.pick(&[2, 2, 2, 1, 1, 0]), 0)
        } else {
            (random.pick(&[1, 1, 0]), random.pick(&[0, 1]))
        };
        case.columns.push(id, state, torn);
        if row < recovered && state > 0 {
            case.history.push(id);
        }
    }
    for _ in 0..random.below(8) {
        if !case.history.is_empty() {
            case.dispatched.push(random.pick(&case.history));
        }
    }
    case.banks = random.pick(&[None, Some(1)]);
    case
}

/// One change, anywhere. What it makes may still be legal.
fn change(random: &mut Random, case: &mut Case) {
    let rows = case.columns.ids.len();
    let some_id = match random.below(4) {
        0 => random.u32(),
        1 => random.below(8),
        _ if rows > 0 => random.pick(&case.columns.ids),
        _ => 0,
    };
    let row = if rows > 0 { random.below(rows as u32) as usize } else { 0 };
    let place = random.below(case.history.len() as u32 + 1) as usize;
    let code = random.pick(&[0, 0, 1, 1, 2, 2, 3, 255]);
    match random.below(12) {
        0 if rows > 0 => case.columns.ids[row] = some_id,
        1 if row < case.columns.states.len() => case.columns.states[row] = code,
        2 if row < case.columns.torn.len() => case.columns.torn[row] = random.pick(&[0, 1, 1, 1, 1, 1, 1, 2]),
        3 => case.history.insert(place, some_id),
        4 if place < case.history.len() => case.history[place] = some_id,
        5 if place < case.history.len() => drop(case.history.remove(place)),
        6 => case.history.truncate(place),
        7 if place < case.history.len() => case.history.swap(place, 0),
        8 => case.history.extend((0..random.below(60)).map(|_| some_id)),
        9 => case.dispatched.push(some_id),
        10 => case.banks = random.pick(&[Some(0), Some(2), Some(3), Some(u64::MAX), None]),
        _ if random.below(4) == 0 => uneven(random, &mut case.columns),
        _ => case.dispatched.insert(0, some_id),
    }
}

/// One column becomes longer or shorter than the others.
fn uneven(random: &mut Random, columns: &mut Columns) {
    match random.below(6) {
        0 => columns.ids.push(0),
        1 => columns.states.push(0),
        2 => columns.torn.push(0),
        3 => drop(columns.ids.pop()),
        4 => drop(columns.states.pop()),
        _ => drop(columns.torn.pop()),
    }
}

/// About an id of the ledger or another, with room for about as many ids as there are.
fn random_question(random: &mut Random, columns: Columns) -> Question {
    let id = match random.below(3) {
        0 if !columns.ids.is_empty() => random.pick(&columns.ids),
        1 => random.u32(),
        _ => random.below(64),
    };
    let room = random.below(columns.ids.len() as u32 + 3) as usize;
    Question { columns, id, room }
}

/// A legal recovery of every entry, the ids in no order, which reaches the last test on both sides.
fn whole_case(random: &mut Random, len: usize, dispatched: usize) -> Case {
    let mut case = Case { banks: Some(1), ..Case::default() };
    let mut ids: Vec<u32> = (0..len as u32).map(|row| row * 1000 + random.below(1000)).collect();
    for row in (1..len).rev() {
        ids.swap(row, random.below(row as u32 + 1) as usize);
    }
    for &id in &ids {
        case.columns.push(id, 2, 0);
        case.history.push(id);
    }
    for _ in 0..dispatched {
        case.dispatched.push(random.pick(&case.history));
    }
    case
}

fn bench(random: &mut Random) {
    for (len, dispatched, times) in [(8, 0, 1 << 15), (512, 0, 1 << 7), (512, 512, 1 << 7)] {
        let case = whole_case(random, len, dispatched);
        // What both sides are given is made once: a ledger and lists of ids there, columns and lists of ids here.
        let ledger = case.columns.ledger().expect("columns of one length");
        let (history, intents) = (records(&case.history), records(&case.dispatched));
        let recovery = Recovery::new(&history).dispatched(&intents).authoritative_banks(1);
        let sum = |cells: Cells| cells.iter().sum::<u64>();
        bench_row(
            &format!("oracle: {len} recovered of {len}, {dispatched} dispatched"),
            times,
            || (0..times).map(|_| sum(cells_of(verify_oracle(std::hint::black_box(&ledger), &recovery)))).sum(),
            || (0..times).map(|_| sum(our_cells(std::hint::black_box(&case)))).sum(),
        );
    }
}

// The sample that crates/oracle_cases replays: the same tables and the same order as in its src/main.rt.
const RECORDS: [u32; 3] = [5, 6, 9];
const BANKS: [Option<u64>; 5] = [None, Some(0), Some(1), Some(2), Some(u64::MAX)];

/// The document's example; then every ledger of up to two entries with ids 5 and 6, with its own answers; then each with
/// every history of up to two records, in turn with dispatched ids and bank counts.
fn sample() -> String {
    let mut text = String::new();
    let mut example = Case { banks: Some(0), ..Case::default() };
    example.columns.push(5, 2, 0);
    example.columns.push(5, 2, 0);
    verdict_line(&mut text, &example);
    let histories: Vec<Vec<u32>> =
        lists(2, 3).iter().map(|list| list.iter().map(|&n| RECORDS[n as usize]).collect()).collect();
    let mut ledgers = ledgers(2, 2);
    ledgers.iter_mut().for_each(|columns| columns.ids.iter_mut().for_each(|id| *id += 5));
    for columns in &ledgers {
        ledger_line(&mut text, columns);
    }
    for (place, (columns, history)) in
        ledgers.iter().flat_map(|columns| histories.iter().map(move |history| (columns, history))).enumerate()
    {
        let (columns, history) = (columns.clone(), history.clone());
        verdict_line(
            &mut text,
            &Case { columns, history, dispatched: RECORDS[..place % 4].to_vec(), banks: BANKS[place % 5] },
        );
    }
    text
}

/// A letter, then numbers; a dash for none.
fn field<N: ToString>(text: &mut String, letter: &str, numbers: impl IntoIterator<Item = Option<N>>) {
    text.push_str(letter);
    for number in numbers {
        text.push(' ');
        text.push_str(&number.map_or("-".to_string(), |number| number.to_string()));
    }
}

fn columns_fields(text: &mut String, columns: &Columns) {
    field(text, "I", columns.ids.iter().map(Some));
    field(text, " S", columns.states.iter().map(Some));
    field(text, " T", columns.torn.iter().map(Some));
}

/// How many entries; the committed and the acknowledged ids; state and torn of each of the three records.
fn ledger_line(text: &mut String, columns: &Columns) {
    let ledger = columns.ledger().expect("columns of one length");
    columns_fields(text, columns);
    field(text, " N", [Some(ledger.len())]);
    field(text, " C", ledger.committed().map(|id| Some(id.0)));
    field(text, " A", ledger.acknowledged().map(|id| Some(id.0)));
    for id in RECORDS {
        let state = ledger.state(RecordId(id)).map(code_of);
        field(text, " R", [state, ledger.torn(RecordId(id)).map(u64::from)]);
    }
    text.push('\n');
}

/// The columns, the history, the dispatched ids, the bank count, and the verdict's number with its values.
fn verdict_line(text: &mut String, case: &Case) {
    columns_fields(text, &case.columns);
    field(text, " H", case.history.iter().map(Some));
    field(text, " D", case.dispatched.iter().map(Some));
    field(text, " B", [case.banks]);
    let Verdict([number, a, first, b, second, c, third]) = rust_verdict(case);
    let value = |present: u64, value: u64| (present == 1).then_some(value);
    let values = [value(a, first), value(b, second), value(c, third)];
    // After the last value stands nothing; a missing one before it is a dash.
    let many = values.iter().rposition(Option::is_some).map_or(0, |last| last + 1);
    field(text, " V", [Some(number)].into_iter().chain(values.into_iter().take(many)));
    text.push('\n');
}
