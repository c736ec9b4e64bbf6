//! The graphs that `toposort` is tried on.
use super::{Case, Edge, ask, edge_bytes, line};
use crate::random::Random;

/// How many random graphs a check makes.
pub const COUNT: usize = 200_000;

const MOST_NODES: usize = 1024;
const MOST_EDGES: usize = 2048;

#[derive(Clone, Copy)]
enum Size {
    Small,
    Middle,
    Full,
}

/// Each graph of at most 3 nodes and at most 4 edges, whose edges run over the
/// nodes and one number more, with the lengths to lend for it.
pub fn every_small(mut each: impl FnMut(Case, Vec<(usize, usize)>)) {
    let mut calls = 0;
    for nodes in 0..=3usize {
        let ends = nodes + 1;
        for edges in 0..=4 {
            for code in 0..(ends * ends).pow(edges) {
                let graph = small_graph(nodes, edges, code);
                each(graph, small_lengths(nodes, &mut calls));
            }
        }
    }
}

/// The edges are the digits of `code`.
fn small_graph(nodes: usize, edges: u32, mut code: usize) -> Case {
    let ends = nodes + 1;
    let mut table = vec![];
    for _ in 0..edges {
        table.push(((code % ends) as u16, (code / ends % ends) as u16));
        code /= ends * ends;
    }
    Case { nodes: nodes as u32, edges: edge_bytes(&table), out_len: 0, counts_len: 0 }
}

/// Too short, just full and longer outputs; the lengths for the counts go around.
fn small_lengths(nodes: usize, calls: &mut usize) -> Vec<(usize, usize)> {
    let full = 2 * nodes;
    let mut outs = vec![0, 1, full.saturating_sub(2), full.saturating_sub(1)];
    outs.extend([full, full + 1, full + 5]);
    outs.sort();
    outs.dedup();
    let pair = |out| {
        *calls += 1;
        (out, *calls % 6)
    };
    outs.into_iter().map(pair).collect()
}

pub fn random(r: &mut Random) -> Case {
    let size = match r.below(100) {
        0..3 => Size::Full,
        3..15 => Size::Middle,
        _ => Size::Small,
    };
    random_of(size, r)
}

/// At the ceiling of nodes or just below.
pub fn large(r: &mut Random) -> Case {
    random_of(Size::Full, r)
}

fn random_of(size: Size, r: &mut Random) -> Case {
    let n = match size {
        Size::Small => r.below(11),
        Size::Middle if r.one_in(4) => 128 + r.below(772),
        Size::Middle => 8 + r.below(120),
        Size::Full if r.one_in(2) => MOST_NODES,
        Size::Full => 900 + r.below(125),
    };
    let mut edges = shape(n, r);
    twist(n, &mut edges, r);
    let mut bytes = edge_bytes(&edges);
    if r.one_in(12) {
        bytes.extend((0..1 + r.below(3)).map(|_| r.next() as u8));
    }
    Case {
        nodes: if r.one_in(25) { too_many_nodes(n, r) } else { n as u32 },
        edges: bytes,
        out_len: out_length(n, r),
        counts_len: r.pick(&[0, 1, 2, 2, 2, 3, 4, 5]),
    }
}

/// Edges that join nodes.
fn shape(n: usize, r: &mut Random) -> Vec<Edge> {
    if n == 0 {
        return vec![];
    }
    let mut order: Vec<usize> = (0..n).collect();
    match r.below(9) {
        0 => loose(n, r.below(n + 1), r),
        1 => loose(n, up_to((n * n).min(MOST_EDGES), r), r),
        2 => chain(&order, r),
        3 => {
            order.reverse();
            chain(&order, r)
        }
        4 => {
            r.shuffle(&mut order);
            chain(&order, r)
        }
        5 | 6 => {
            r.shuffle(&mut order);
            falling(&order, r)
        }
        7 => {
            r.shuffle(&mut order);
            broken(&order, r)
        }
        _ => star(n, r),
    }
}

/// Half of the time the most, else fewer.
fn up_to(most: usize, r: &mut Random) -> usize {
    if r.one_in(2) { most } else { r.below(most + 1) }
}

fn loose(n: usize, count: usize, r: &mut Random) -> Vec<Edge> {
    (0..count).map(|_| (r.below(n) as u16, r.below(n) as u16)).collect()
}

/// A path through all nodes; its edges in a row, backwards or mixed, sometimes
/// with one from its end back, sometimes with shortcuts.
fn chain(order: &[usize], r: &mut Random) -> Vec<Edge> {
    let mut edges: Vec<Edge> = order.windows(2).map(|w| (w[0] as u16, w[1] as u16)).collect();
    if r.one_in(4) {
        let back = if r.one_in(2) { 0 } else { r.below(order.len()) };
        edges.push((order[order.len() - 1] as u16, order[back] as u16));
    }
    if r.one_in(3) {
        edges.extend(falling(order, r));
    }
    match r.below(3) {
        0 => edges.reverse(),
        1 => r.shuffle(&mut edges),
        _ => {}
    }
    edges
}

/// Edges that all go down the order, so that there is no cycle.
fn falling(order: &[usize], r: &mut Random) -> Vec<Edge> {
    let n = order.len();
    if n < 2 {
        return vec![];
    }
    let down = |r: &mut Random| {
        let from = r.below(n - 1);
        let to = from + 1 + r.below(n - 1 - from);
        (order[from] as u16, order[to] as u16)
    };
    (0..up_to((3 * n).min(MOST_EDGES), r)).map(|_| down(r)).collect()
}

/// No cycle but for one edge up the order.
fn broken(order: &[usize], r: &mut Random) -> Vec<Edge> {
    let mut edges = falling(order, r);
    edges.truncate(MOST_EDGES - 1);
    let low = r.below(order.len());
    let high = r.below(low + 1);
    insert(&mut edges, (order[low] as u16, order[high] as u16), r);
    edges
}

/// All to one node, or one to all.
fn star(n: usize, r: &mut Random) -> Vec<Edge> {
    let hub = r.below(n);
    let inward = r.one_in(2);
    let mut spokes: Vec<usize> = (0..n).filter(|v| *v != hub).collect();
    r.shuffle(&mut spokes);
    let edge = |v: usize| if inward { (v as u16, hub as u16) } else { (hub as u16, v as u16) };
    spokes.into_iter().map(edge).collect()
}

fn insert(edges: &mut Vec<Edge>, edge: Edge, r: &mut Random) {
    edges.insert(r.below(edges.len() + 1), edge);
}

/// Repeated edges, an edge from a node to itself, an edge from or to no node, too many edges.
fn twist(n: usize, edges: &mut Vec<Edge>, r: &mut Random) {
    if !edges.is_empty() && r.one_in(4) {
        for _ in 0..1 + r.below(4) {
            let again = r.pick(edges);
            insert(edges, again, r);
        }
    }
    if n > 0 && r.one_in(12) {
        let v = r.below(n) as u16;
        insert(edges, (v, v), r);
    }
    edges.truncate(MOST_EDGES);
    if r.one_in(8) {
        let edge = bad_edge(n, r);
        edges.truncate(MOST_EDGES - 1);
        insert(edges, edge, r);
    }
    if r.one_in(40) {
        let count = MOST_EDGES + r.pick(&[0, 1, 1, 2, 100]);
        let last = edges.last().copied().unwrap_or((0, 0));
        edges.resize(count, last);
    }
}

fn bad_edge(n: usize, r: &mut Random) -> Edge {
    let good = if n == 0 { 0 } else { r.below(n) as u16 };
    let far = n + 1 + r.below(60_000);
    let none = r.pick(&[n, n, n, n + 1, far, 65_535]).min(65_535) as u16;
    r.pick(&[(good, none), (good, none), (none, good), (none, none)])
}

/// Also numbers whose low 16 bits are few nodes.
fn too_many_nodes(n: usize, r: &mut Random) -> u32 {
    let n = n as u32;
    r.pick(&[1025, 1026, 2048, 65_535, 65_536, 65_536 + n, (1 << 31) + n, u32::MAX])
}

fn out_length(n: usize, r: &mut Random) -> usize {
    let full = 2 * n;
    match r.below(20) {
        0 => 0,
        1 => 1,
        2 => full.saturating_sub(1),
        3 => full.saturating_sub(2),
        4 => r.below(full + 1),
        5 => full + 1,
        6..9 => full + 2 + r.below(40),
        _ => full,
    }
}

/// The file `stored/toposort.txt`.
pub fn store(seed: u64) -> String {
    let mut r = Random::new(seed);
    let mut cases = named();
    for (count, size) in [(360, Size::Small), (30, Size::Middle), (12, Size::Full)] {
        cases.extend((0..count).map(|_| random_of(size, &mut r)));
    }
    let mut text = line::FORMAT.to_string();
    for case in &cases {
        text += &line::put(case, &ask(case));
        text += "\n";
    }
    text
}

/// Document 01's P1 to P4, then for each two neighbours in the order of the checks
/// a case that both refuse.
fn named() -> Vec<Case> {
    let case = |nodes: u32, edges: &[Edge], cut: &[u8], out_len: usize| Case {
        nodes,
        edges: [&edge_bytes(edges), cut].concat(),
        out_len,
        counts_len: 2,
    };
    let ring = [(0, 1), (1, 2), (2, 1)];
    let bad = [(1, 3); MOST_EDGES + 1];
    vec![
        case(0, &[], &[], 0),
        case(3, &[(0, 2), (1, 2)], &[], 6),
        case(3, &ring, &[], 6),
        case(3, &ring, &[], 10),
        case(2, &[(0, 2)], &[], 4),
        case(1025, &ring, &[0], 6),
        case(3, &bad, &[9, 9, 9], 6),
        case(3, &bad, &[], 6),
        case(3, &bad[1..], &[], 5),
        case(3, &[(0, 1), (3, 0), (0, 3)], &[], 0),
        case(3, &ring, &[], 5),
    ]
}
