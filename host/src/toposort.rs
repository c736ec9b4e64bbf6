//! The entry `toposort` beside the Rust's function of that name.
mod graphs;
mod line;

use oracle::answers::{self, Toposort};

use crate::{
    Entry,
    bytes::{differing, half_at, hex, put_half},
    document::{self, toposort::Found},
    entries,
    lent::Lent,
    parts,
    random::Random,
    soak::{Size, shorter},
    tally::Tally,
    vast,
};

pub const ENTRY: Entry = Entry {
    name: "toposort",
    outcomes: &[0, 1, 2, 61, 62, 76],
    alone,
    beside: Some(beside),
    some: None,
    one,
    answers: "the Rust",
    replay,
    store: graphs::store,
};

/// What is lent for one call.
#[derive(Clone, Debug, Eq, PartialEq)]
pub struct Case {
    nodes: u32,
    edges: Vec<u8>,
    out_len: usize,
    counts_len: usize,
}

/// An edge: from, to.
type Edge = (u16, u16);

fn edge_bytes(edges: &[Edge]) -> Vec<u8> {
    let mut bytes = vec![];
    for &(from, to) in edges {
        put_half(&mut bytes, from);
        put_half(&mut bytes, to);
    }
    bytes
}

/// The whole edges of a table.
fn edges_in(bytes: &[u8]) -> Vec<Edge> {
    let whole = bytes.chunks_exact(4);
    whole.map(|e| (half_at(e, 0), half_at(e, 2))).collect()
}

/// `None` where the Rust can't be given the case: too many nodes, a cut table, or
/// an edge from no node.
fn ask(case: &Case) -> Option<Toposort> {
    if case.nodes > 1024 || !case.edges.len().is_multiple_of(4) {
        return None;
    }
    let mut graph = vec![vec![]; case.nodes as usize];
    for (from, to) in edges_in(&case.edges) {
        graph.get_mut(from as usize)?.push(to as usize);
    }
    answers::toposort(&graph)
}

fn found(rust: &Option<Toposort>) -> Option<Found<'_>> {
    match rust {
        Some(Toposort::Order(order)) => Some(Found::Order(order)),
        Some(Toposort::Cycle(cycle)) => Some(Found::Cycle(cycle)),
        Some(Toposort::Panic) | None => None,
    }
}

fn note(rust: &Option<Toposort>) -> &'static str {
    match rust {
        Some(Toposort::Order(_)) => ", the Rust: an order",
        Some(Toposort::Cycle(_)) => ", the Rust: a cycle",
        Some(Toposort::Panic) => ", the Rust: a panic",
        None => ", the Rust can't be given it",
    }
}

/// Calls the entry and holds it to the Rust's answer under document 01's rules.
fn compare(case: &Case, rust: &Option<Toposort>, tally: &mut Tally) {
    let Case { nodes, edges, out_len, counts_len } = case;
    let right = document::toposort::answer(*nodes, edges, *out_len, *counts_len, found(rust));
    let Some(right) = right else {
        let line = "the search decides, and the Rust gives no answer".to_string();
        tally.difference(&line::put(case, rust), &[line]);
        return;
    };
    tally.count(document::number(right.word), note(rust));

    let [first, second, third] = shifts(case);
    let input = Lent::input(edges, first);
    let mut out = Lent::output(*out_len, second);
    let mut counts = Lent::output(*counts_len, third);
    let word = entries::toposort(*nodes, input.slice(), out.slice_mut(), counts.slice_mut());

    let mut lines = vec![];
    if word != right.word {
        let (right, given) = (document::describe(right.word), document::describe(word));
        lines.push(format!("answer: {right} is right, given {given}"));
    }
    lines.extend(differing("nodes", &right.out_nodes, out.slice()));
    lines.extend(differing("counts", &right.counts, counts.slice()));
    lines.extend(differing("edges, lent as input", edges, input.slice()));
    if !(input.guards_whole() && out.guards_whole() && counts.guards_whole()) {
        lines.push("bytes outside the lent ones were written".to_string());
    }
    if !lines.is_empty() {
        tally.difference(&line::put(case, rust), &lines);
    }
}

/// Where the three slices start; fixed by the case, so that a replay repeats it.
fn shifts(case: &Case) -> [usize; 3] {
    let sum: u64 = case.edges.iter().map(|b| *b as u64).sum();
    let mut random = Random::new(sum ^ (case.out_len as u64) << 32 ^ (case.nodes as u64) << 48);
    [random.below(16), random.below(16), random.below(16)]
}

/// Nothing without the Rust, which alone knows the order.
fn one(size: Size, r: &mut Random, tally: &mut Tally) {
    if !answers::PRESENT {
        return;
    }
    let mut case = if let Size::Large = size { graphs::large(r) } else { graphs::random(r) };
    if let Size::Short = size {
        case.edges.truncate(shorter(case.edges.len(), r));
        case.out_len = shorter(case.out_len, r);
        case.counts_len = shorter(case.counts_len, r);
    }
    compare(&case, &ask(&case), tally);
}

fn beside(seed: u64, tally: &mut Tally) {
    tally.begin("toposort, every graph of at most 3 nodes and 4 edges, edges to one number more");
    graphs::every_small(|graph, lengths| {
        let rust = ask(&graph);
        for (out_len, counts_len) in lengths {
            compare(&Case { out_len, counts_len, ..graph.clone() }, &rust, tally);
        }
    });
    tally.end(&[0, 61, 62, 76]);

    tally.begin(&format!("toposort, {} random graphs, seed {seed}", graphs::COUNT));
    parts::random(seed, graphs::COUNT, tally, |r, tally| {
        let case = graphs::random(r);
        compare(&case, &ask(&case), tally);
    });
    tally.end(ENTRY.outcomes);
}

/// Edge tables longer than any memory: only their length can be looked at.
fn alone(_seed: u64, tally: &mut Tally) {
    const MANY: usize = 4 << 32;
    let Some(zeros) = vast::zeros(MANY + 8) else {
        println!("toposort, edge tables above 32 bits: not tried, the system grants no such range");
        return;
    };
    tally.begin("toposort, edge tables above 32 bits");
    for len in [MANY - 7, MANY - 4, MANY - 3, MANY - 1, MANY, MANY + 1, MANY + 4, MANY + 7] {
        for nodes in [0, 3, 1025] {
            compare_vast(nodes, &zeros[..len], tally);
        }
    }
    tally.end(&[1, 2]);
}

fn compare_vast(nodes: u32, edges: &[u8], tally: &mut Tally) {
    let right = document::word(document::toposort::refusal(nodes, edges, 8));
    tally.count(document::number(right), "");
    let mut out = Lent::output(8, 0);
    let mut counts = Lent::output(2, 0);
    let word = entries::toposort(nodes, edges, out.slice_mut(), counts.slice_mut());
    let zeros = |lent: &Lent| lent.slice().iter().all(|b| *b == 0) && lent.guards_whole();
    if word != right || !zeros(&out) || !zeros(&counts) {
        let (right, given) = (document::describe(right), document::describe(word));
        let lines = [
            format!("{nodes} nodes, {} bytes of zero edges", edges.len()),
            format!("answer: {right} is right, given {given}"),
            format!("nodes {}, counts {}", hex(out.slice()), hex(counts.slice())),
        ];
        tally.difference("-", &lines);
    }
}

/// One stored line: the entry, and the Rust where it is there, must give the stored answer.
fn replay(line: &str, tally: &mut Tally) -> Result<(), String> {
    let (case, stored) = line::read(line)?;
    let now = ask(&case);
    if answers::PRESENT && stored.is_some() && stored != now {
        tally.difference(line, &[format!("the Rust gives {now:?}")]);
    }
    compare(&case, if stored.is_some() { &stored } else { &now }, tally);
    Ok(())
}
