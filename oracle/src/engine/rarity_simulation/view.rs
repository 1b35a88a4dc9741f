//! What the hooks in rarity_simulation.rs note, and the view of its private fields.
//!
//! Nothing here changes what the search does, but that a run which leaves the comparison is ended
//! by a panic whose payload says why.

use super::{Bug, Executor, ExecutorResult, RarityBugInfo, RaritySimulationError, Value};
use std::cell::{Cell, RefCell};

/// The sizes that the search itself does not know, and whether the final store is wanted.
#[derive(Debug, Clone, Copy, Default)]
pub struct Sizes {
    pub states: usize,
    pub memory_words: usize,
    pub log_words: usize,
    pub store_wanted: bool,
}

/// The panic payload of a run that leaves the comparison.
pub enum Outside {
    /// 8: fewer tape words left than copies to make
    Copies { to_copy: usize, left: usize },
    /// 25: the log is full
    LogFull { row: usize, pc: u64 },
    /// 44: a buffer of read or write ends exactly where memory ends
    EndsWithMemory { row: usize, pc: u64 },
}

/// The row whose bug or error the search chose, and the pc before its last instruction.
#[derive(Debug, Clone, Copy, PartialEq, Eq)]
pub struct Place {
    pub row: usize,
    pub pc: u64,
}

/// The final store in the layout of the scope paper.
#[derive(Debug, Default)]
pub struct Store {
    pub words: Vec<u64>,
    pub marks: Vec<u8>,
}

thread_local! {
    static SIZES: Cell<Sizes> = Cell::new(Sizes::default());
    /// for each run of this round, the pc before its latest instruction
    static PCS: RefCell<Vec<u64>> = RefCell::new(Vec::new());
    static PLACE: Cell<Option<Place>> = Cell::new(None);
    static STORE: RefCell<Option<Store>> = RefCell::new(None);
}

pub fn prepare(sizes: Sizes) {
    SIZES.with(|s| s.set(sizes));
}

/// The place of the bug or error that ended the search.
pub fn place() -> Option<Place> {
    PLACE.with(|p| p.get())
}

/// The row that is running, or ran last in this round, and the pc before its latest instruction.
pub fn latest() -> Option<Place> {
    PCS.with(|pcs| {
        let pcs = pcs.borrow();
        pcs.last().map(|pc| Place {
            row: pcs.len() - 1,
            pc: *pc,
        })
    })
}

pub fn take_store() -> Option<Store> {
    STORE.with(|s| s.borrow_mut().take())
}

pub fn inputs(info: &RarityBugInfo) -> &[u64] {
    &info.inputs
}

pub fn pc(info: &RarityBugInfo) -> u64 {
    info.pc
}

pub(super) fn before_copies(to_copy: usize) {
    let left = rand::tape::left();
    if left < to_copy {
        std::panic::panic_any(Outside::Copies { to_copy, left });
    }
}

pub(super) fn before_draw(logged: usize) {
    if logged >= SIZES.with(|s| s.get()).log_words {
        let Place { row, pc } = latest().expect("a draw comes from a running row");
        std::panic::panic_any(Outside::LogFull { row, pc });
    }
}

pub(super) fn before_range_check(address: u64, size: u64) {
    let words = SIZES.with(|s| s.get()).memory_words as u64;
    if address / 8 < words && address.checked_add(size) == Some(8 * words) {
        let Place { row, pc } = latest().expect("a call comes from a running row");
        std::panic::panic_any(Outside::EndsWithMemory { row, pc });
    }
}

pub(super) fn runs_begin() {
    PCS.with(|pcs| pcs.borrow_mut().clear());
}

pub(super) fn run_begins() {
    PCS.with(|pcs| pcs.borrow_mut().push(0));
}

pub(super) fn step_begins(pc: u64) {
    PCS.with(|pcs| {
        *pcs.borrow_mut().last_mut().expect("a run has begun") = pc;
    });
}

pub(super) fn bug_chosen(executors: &[Box<Executor>], results: &[ExecutorResult], bug: &Bug) {
    let row = results
        .iter()
        .position(|r| matches!(r, Ok(Some(b)) if std::ptr::eq(b, bug)));
    chosen(executors, row);
}

pub(super) fn error_chosen(
    executors: &[Box<Executor>],
    results: &[ExecutorResult],
    error: &RaritySimulationError,
) {
    let row = results
        .iter()
        .position(|r| matches!(r, Err(e) if std::ptr::eq(e, error)));
    chosen(executors, row);
}

fn chosen(executors: &[Box<Executor>], row: Option<usize>) {
    let row = row.expect("the outcome is one of the results");
    let pc = PCS.with(|pcs| pcs.borrow()[row]);
    PLACE.with(|p| p.set(Some(Place { row, pc })));
    rows_left(executors);
}

/// Notes the final store: these rows in order, then zero rows up to the number of states.
pub(super) fn rows_left(executors: &[Box<Executor>]) {
    let sizes = SIZES.with(|s| s.get());
    if !sizes.store_wanted {
        return;
    }

    let mut store = Store::default();
    for executor in executors {
        add_row(&mut store, executor, sizes);
    }
    store.words.resize(
        sizes.states * (37 + sizes.memory_words + sizes.log_words),
        0,
    );
    store
        .marks
        .resize(sizes.states * (32 + sizes.memory_words), 0);
    STORE.with(|s| *s.borrow_mut() = Some(store));
}

fn add_row(store: &mut Store, executor: &Executor, sizes: Sizes) {
    store.words.extend_from_slice(&[
        executor.state.pc,
        executor.program_break,
        executor.execution_depth,
        executor.max_exection_depth,
        executor.concrete_inputs.len() as u64,
    ]);
    for value in executor.state.regs.iter() {
        add_value(store, *value);
    }
    for index in 0..sizes.memory_words {
        add_value(store, executor.state.memory[index]);
    }
    for index in 0..sizes.log_words {
        let word = executor.concrete_inputs.get(index).copied().unwrap_or(0);
        store.words.push(word);
    }
}

fn add_value(store: &mut Store, value: Value) {
    match value {
        Value::Concrete(word) => {
            store.words.push(word);
            store.marks.push(1);
        }
        Value::Uninitialized => {
            store.words.push(0);
            store.marks.push(0);
        }
    }
}
