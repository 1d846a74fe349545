//! The graph that abstract_state.rs uses: the Rust's own. Each call that puts edges in counts the sets that it blurs
//! (request A1); and while a run is watched there is a look at the limits of document 01 (21 and 22) at each call.
//!
//! The Rust's edges carry a `loc`, of any type; abstract_state.rs has the empty one there. Here it is the offset of the
//! instruction that runs (request A9), and what becomes of it is left to the Rust's graph. `borrowed_by`, by which every
//! test sees the edges that leave a name, tells a watched run what was tested.
//!
//! Where a watched run finds a crossing, all names are changed together (request A2), by two renames of the Rust's.

use crate::{file_format::CodeOffset, kept, panics::Thrown, references::RefID, rust_graph};
use std::{
    cell::{Cell, RefCell},
    collections::BTreeMap,
    fmt,
    fmt::Debug,
    marker::PhantomData,
    ops::Range,
    panic::panic_any,
};

thread_local! {
    pub static WATCHING: Cell<bool> = const { Cell::new(false) };
    static CROSSING: Cell<bool> = const { Cell::new(false) };
    static TESTS: RefCell<Tests> = const { RefCell::new(Tests::NONE) };
    /// Of the visit or join that goes on.
    static BLURRED: Cell<Blurred> = const { Cell::new(Blurred::NONE) };
    /// Of those before it.
    static PASSED_UP: Cell<Blurred> = const { Cell::new(Blurred::NONE) };
}

/// How many sets were blurred, by each kind of call: sets whose `overflown` is not true before a call and is after it.
#[derive(Clone, Copy, Debug, Default, Eq, PartialEq)]
pub struct Blurred {
    pub borrow: u64,
    pub release: u64,
    pub join: u64,
}

impl Blurred {
    const NONE: Blurred = Blurred { borrow: 0, release: 0, join: 0 };

    pub fn all(&self) -> u64 {
        self.borrow + self.release + self.join
    }

    pub fn add(&mut self, more: Blurred) {
        self.borrow += more.borrow;
        self.release += more.release;
        self.join += more.join
    }
}

/// A visit or a state's join has ended and was not refused: what its calls blurred counts.
pub fn pass_up() {
    let mut all = PASSED_UP.take();
    all.add(BLURRED.take());
    PASSED_UP.set(all)
}

/// What was passed up since this was last asked. A visit or a join that was refused passed up nothing.
pub fn passed_up() -> Blurred {
    BLURRED.take();
    PASSED_UP.take()
}

/// The tests that an instruction makes.
struct Tests {
    /// Of the instruction's record.
    offset: CodeOffset,
    count: usize,
    /// The offsets of the edges that leave the name tested last.
    edges: Vec<CodeOffset>,
    trial: Option<Trial>,
}

/// The tests before this one, by its count, see no edge. It sees one alone, by its place among those that leave the name,
/// or all.
#[derive(Clone, Copy)]
pub struct Trial {
    pub test: usize,
    pub alone: Option<usize>,
}

impl Tests {
    const NONE: Tests = Tests { offset: 0, count: 0, edges: vec![], trial: None };

    /// The places of the edges that the next test sees.
    fn next(&mut self, edges: Vec<CodeOffset>) -> Range<usize> {
        self.count += 1;
        self.edges = edges;
        match self.trial {
            Some(trial) if self.count < trial.test => 0..0,
            Some(Trial { test, alone: Some(edge) }) if self.count == test => edge..edge + 1,
            _ => 0..self.edges.len(),
        }
    }
}

/// An instruction starts, whose record has this offset.
pub fn start_at(offset: CodeOffset) {
    TESTS.set(Tests { offset, ..Tests::NONE })
}

/// The count of the instruction's last test, and the offsets of the edges that leave the name tested.
pub fn last_test() -> (usize, Vec<CodeOffset>) {
    TESTS.with_borrow(|tests| (tests.count, tests.edges.clone()))
}

/// Runs an instruction again as a trial. Whether it fails, and the last test; what else it does counts for nothing.
pub fn tried(trial: Trial, again: impl FnOnce() -> bool) -> (bool, usize) {
    let (watching, blurred) = (WATCHING.replace(false), BLURRED.get());
    let offset = TESTS.with_borrow(|tests| tests.offset);
    TESTS.set(Tests { offset, trial: Some(trial), ..Tests::NONE });
    let fails = again();
    WATCHING.set(watching);
    BLURRED.set(blurred);
    (fails, last_test().0)
}

/// Ends a block, whose names may cross.
pub fn renaming<T>(crosses: bool, end: impl FnOnce() -> T) -> T {
    CROSSING.set(crosses);
    let ended = end();
    CROSSING.set(false);
    ended
}

/// Above all names of a run.
const FREE: usize = 65_536;
const MOST_EDGES: usize = 96;
const MOST_LABELS: usize = 8;
const MOST_IN_SET: usize = 10;

type Rust<Lbl> = rust_graph::BorrowGraph<CodeOffset, Lbl>;

#[derive(Clone, PartialEq)]
pub struct BorrowGraph<Loc: Copy, Lbl: Clone + Ord>(Rust<Lbl>, PhantomData<Loc>);

impl<Loc: Copy, Lbl: Clone + Ord + Debug> Debug for BorrowGraph<Loc, Lbl> {
    /// The Rust writes no `loc`, so the offsets come after what it writes.
    fn fmt(&self, f: &mut fmt::Formatter<'_>) -> fmt::Result {
        let names = self.0.all_refs().into_iter();
        let offsets: Vec<CodeOffset> =
            names.flat_map(|id| self.0.out_edges(id)).map(|(offset, ..)| offset).collect();
        write!(f, "{:?}{}{offsets:?}", self.0, kept::OFFSETS)
    }
}

/// The names that borrow from one: as a whole, and by the first label.
type BorrowedBy<Lbl> = (BTreeMap<RefID, ()>, BTreeMap<Lbl, BTreeMap<RefID, ()>>);

impl<Lbl: Clone + Ord + Debug> BorrowGraph<(), Lbl> {
    pub fn new() -> Self {
        Self(Rust::new(), PhantomData)
    }

    pub fn is_mutable(&self, id: RefID) -> bool {
        self.0.is_mutable(id)
    }

    pub fn new_ref(&mut self, id: RefID, mutable: bool) {
        self.0.new_ref(id, mutable)
    }

    pub fn borrowed_by(&self, id: RefID) -> BorrowedBy<Lbl> {
        let edges = self.0.out_edges(id);
        let offsets = edges.iter().map(|(offset, ..)| *offset).collect();
        let seen = TESTS.with_borrow_mut(|tests| tests.next(offsets));
        if seen.len() == edges.len() {
            return without_offsets(self.0.borrowed_by(id));
        }
        let mut some = Rust::new();
        some.new_ref(id, true);
        for (offset, path, _, child) in &edges[seen] {
            some.new_ref(*child, true);
            // Of a path a test sees the first label at most.
            match path.first() {
                None => some.add_weak_borrow(*offset, id, *child),
                Some(label) => some.add_weak_field_borrow(*offset, id, label.clone(), *child),
            }
        }
        without_offsets(some.borrowed_by(id))
    }

    pub fn add_strong_borrow(&mut self, _: (), parent: RefID, child: RefID) {
        self.borrow(parent, |graph, offset| graph.add_strong_borrow(offset, parent, child))
    }

    pub fn add_strong_field_borrow(&mut self, _: (), parent: RefID, field: Lbl, child: RefID) {
        self.borrow(parent, |graph, offset| graph.add_strong_field_borrow(offset, parent, field, child))
    }

    pub fn add_weak_borrow(&mut self, _: (), parent: RefID, child: RefID) {
        self.borrow(parent, |graph, offset| graph.add_weak_borrow(offset, parent, child))
    }

    pub fn add_weak_field_borrow(&mut self, _: (), parent: RefID, field: Lbl, child: RefID) {
        self.borrow(parent, |graph, offset| graph.add_weak_field_borrow(offset, parent, field, child))
    }

    /// The only call that makes paths longer.
    pub fn release(&mut self, id: RefID) {
        if WATCHING.get() && self.may_pass_labels(id) && passes_labels(&plain(&self.0), id.number()) {
            panic_any(Thrown(22))
        }
        let before = self.0.clone();
        let spliced = before.in_edges(id).len() * before.out_edges(id).len();
        self.0.release(id);
        self.within_limit();
        count(|all| &mut all.release, &before, spliced, &self.0)
    }

    pub fn leq(&self, other: &Self) -> bool {
        self.0.leq(&other.0)
    }

    /// One name after the other, as the Rust does; at a crossing that would overwrite a name, so there each goes by a name
    /// that nothing has.
    pub fn remap_refs(&mut self, id_map: &BTreeMap<RefID, RefID>) {
        if !CROSSING.get() {
            return self.0.remap_refs(id_map);
        }
        let free = |old: &RefID| RefID::new(FREE + old.number());
        self.0.remap_refs(&id_map.keys().map(|old| (*old, free(old))).collect());
        self.0.remap_refs(&id_map.iter().map(|(old, new)| (free(old), *new)).collect())
    }

    pub fn join(&self, other: &Self) -> Self {
        let joined = Self(self.0.join(&other.0), PhantomData);
        joined.within_limit();
        count(|all| &mut all.join, &self.0, edges(&other.0), &joined.0);
        // The last call of a state's join.
        pass_up();
        joined
    }

    /// The parent's edges may be moved, and one comes.
    fn borrow(&mut self, parent: RefID, call: impl FnOnce(&mut Rust<Lbl>, CodeOffset)) {
        let before = self.0.clone();
        let moved = before.out_edges(parent).len();
        call(&mut self.0, TESTS.with_borrow(|tests| tests.offset));
        self.within_limit();
        count(|all| &mut all.borrow, &before, moved + 1, &self.0)
    }

    fn within_limit(&self) {
        if !WATCHING.get() {
            return;
        }
        if edges(&self.0) > MOST_EDGES {
            panic_any(Thrown(21))
        }
    }

    fn may_pass_labels(&self, id: RefID) -> bool {
        let longest = |lengths: &mut dyn Iterator<Item = usize>| lengths.max().unwrap_or(0);
        let above = longest(&mut self.0.in_edges(id).iter().map(|edge| edge.2.len()));
        let below = longest(&mut self.0.out_edges(id).iter().map(|edge| edge.1.len()));
        above + below > MOST_LABELS
    }
}

fn without_offsets<Lbl: Ord>(
    (full, fields): (BTreeMap<RefID, CodeOffset>, BTreeMap<Lbl, BTreeMap<RefID, CodeOffset>>),
) -> BorrowedBy<Lbl> {
    let names = |borrows: BTreeMap<RefID, CodeOffset>| borrows.into_keys().map(|id| (id, ())).collect();
    (names(full), fields.into_iter().map(|(label, borrows)| (label, names(borrows))).collect())
}

fn edges<Lbl: Clone + Ord>(graph: &Rust<Lbl>) -> usize {
    graph.all_refs().into_iter().map(|id| graph.out_edges(id).len()).sum()
}

fn plain<Lbl: Clone + Ord + Debug>(graph: &Rust<Lbl>) -> kept::Graph {
    kept::graph(&format!("{graph:?}"))
}

/// Counts the sets that a call blurred, by the graph before it, the most edges that it puts in and the graph after it.
fn count<Lbl: Clone + Ord + Debug>(
    kind: fn(&mut Blurred) -> &mut u64,
    before: &Rust<Lbl>,
    added: usize,
    after: &Rust<Lbl>,
) {
    // Only `Debug` shows `overflown`, slowly. A set blurs by an eleventh edge and is then one weak edge with an empty
    // path: where no set is so, or none had so many edges, none was blurred.
    let suspect = |parent: RefID| {
        let (old, new) = (before.out_edges(parent), after.out_edges(parent));
        let held = |child: RefID| old.iter().filter(|edge| edge.3 == child).count();
        let alone = |child: RefID| new.iter().filter(|edge| edge.3 == child).count() == 1;
        let weak = new.iter().filter(|(_, path, strong, _)| path.is_empty() && !strong);
        weak.map(|edge| edge.3).any(|child| alone(child) && held(child) + added > MOST_IN_SET)
    };
    if !after.all_refs().into_iter().any(suspect) {
        return;
    }
    let (before, after) = (plain(before), plain(after));
    let was = |pair| before.sets.get(pair).is_some_and(|set| set.blurred);
    let now = after.sets.iter().filter(|(pair, set)| set.blurred && !was(pair)).count();
    let mut all = BLURRED.get();
    *kind(&mut all) += now as u64;
    BLURRED.set(all)
}

/// Whether releasing the name puts an edge of too many labels into an unblurred set of fewer than ten. Sets of
/// different pairs don't touch each other, so each is gone through by itself.
fn passes_labels(graph: &kept::Graph, id: usize) -> bool {
    let above = graph.sets.iter().filter(|((_, to), _)| *to == id);
    let mut pairs = above.flat_map(|((parent, _), first)| {
        let below = graph.sets.iter().filter(move |((from, to), _)| *from == id && to != parent);
        below.map(move |((_, child), second)| (*parent, *child, first, second))
    });
    pairs.any(|(parent, child, first, second)| {
        let mut set = graph.sets.get(&(parent, child)).cloned().unwrap_or_default();
        for upper in &first.edges {
            for lower in &second.edges {
                if set.blurred {
                    return false;
                }
                let mut edge = upper.clone();
                if upper.strong {
                    edge.strong = lower.strong;
                    edge.path.extend(&lower.path)
                }
                if set.edges.len() == MOST_IN_SET {
                    set.blurred = true
                } else if edge.path.len() > MOST_LABELS {
                    return true;
                } else if !set.edges.contains(&edge) {
                    set.edges.push(edge)
                }
            }
        }
        false
    })
}
