//! States of the Rust as plain data. Their fields are private, so they are read from what `Debug` writes.

use std::collections::BTreeMap;

#[derive(Clone, Debug, Eq, Ord, PartialEq, PartialOrd)]
pub struct Edge {
    pub strong: bool,
    /// Labels as kind × 65,536 + number: Local 0, Global 1, Field 2.
    pub path: Vec<u32>,
    /// Of the instruction that made it; 0 where the text has none.
    pub offset: u16,
}

#[derive(Clone, Debug, Default, Eq, PartialEq)]
pub struct EdgeSet {
    pub edges: Vec<Edge>,
    pub blurred: bool,
}

#[derive(Clone, Debug, Default, Eq, PartialEq)]
pub struct Graph {
    /// The names held, each mutable or not.
    pub names: BTreeMap<usize, bool>,
    /// By parent and child.
    pub sets: BTreeMap<(usize, usize), EdgeSet>,
}

#[derive(Clone, Debug, Default, Eq, PartialEq)]
pub struct State {
    /// The locals present: a reference's name, or none for a value.
    pub locals: BTreeMap<u8, Option<usize>>,
    pub graph: Graph,
}

/// Words and numbers tell everything; what stands between them is passed over.
fn words(text: &str) -> impl Iterator<Item = &str> {
    text.split(|c: char| !c.is_alphanumeric() && c != '_').filter(|w| !w.is_empty())
}

/// After the edges there may be their offsets, in the same order.
pub const OFFSETS: &str = " offsets: ";

pub fn graph(text: &str) -> Graph {
    let mut graph = Graph::default();
    let (mut name, mut parent, mut child, mut kind) = (0, 0, 0, 0);
    let (text, offsets) = text.split_once(OFFSETS).unwrap_or((text, ""));
    let all_offsets = words(offsets);
    let mut words = words(text);
    while let Some(word) = words.next() {
        let edges = graph.sets.get_mut(&(parent, child));
        match word {
            "RefID" => name = number(words.next()),
            "Ref" => parent = name,
            "BorrowEdgeSet" => {
                child = name;
                graph.sets.insert((parent, child), EdgeSet::default());
            }
            "strong" => {
                edges.unwrap().edges.push(Edge { strong: truth(words.next()), path: vec![], offset: 0 })
            }
            "overflown" => edges.unwrap().blurred = truth(words.next()),
            "mutable" => {
                graph.names.insert(parent, truth(words.next()));
            }
            "Local" => kind = 0,
            "Global" => kind = 1,
            "Field" => kind = 2,
            _ => {
                if let Ok(label) = word.parse::<u32>() {
                    edges.unwrap().edges.last_mut().unwrap().path.push(kind * 65_536 + label)
                }
            }
        }
    }
    let all_edges = graph.sets.values_mut().flat_map(|set| &mut set.edges);
    all_edges.zip(all_offsets).for_each(|(edge, offset)| edge.offset = offset.parse().unwrap());
    graph
}

pub fn state(text: &str) -> State {
    let (_, rest) = text.split_once("locals: {").unwrap();
    let (locals, rest) = rest.split_once("borrow_graph: ").unwrap();
    let (borrows, _) = rest.split_once(", num_locals").unwrap();
    let mut state = State { graph: graph(borrows), ..State::default() };
    let mut words = words(locals);
    while let Some(local) = words.next() {
        let name = match words.next() {
            Some("Reference") => {
                words.next();
                Some(number(words.next()))
            }
            _ => None,
        };
        state.locals.insert(local.parse().unwrap(), name);
    }
    state
}

fn number(word: Option<&str>) -> usize {
    word.unwrap().parse().unwrap()
}

fn truth(word: Option<&str>) -> bool {
    word.unwrap() == "true"
}
