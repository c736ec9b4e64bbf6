//! A case of `toposort` and the Rust's answer as a line of text.
use oracle::answers::Toposort;

use super::{Case, edge_bytes, edges_in};
use crate::text::{self, Field};

pub const FORMAT: &str = "\
# A line is a case: the entry's name, then fields, each a word and its decimal numbers:
#   nodes N          how many nodes
#   edges F T ..     the edge table: from and to of each edge
#   cut B ..         bytes after the last whole edge (left out if there are none)
#   out L            how many bytes are lent for the nodes
#   counts L         how many bytes are lent for the counts
# and the Rust's answer for the adjacency lists that the edges make in table order:
#   order V ..       the order
#   cycle V ..       the cycle
#   panic            it panics (an edge to a number above that of the nodes)
# It has none where it can't be given the case: more than 1,024 nodes, a cut table, an edge from no node.
";

pub fn put(case: &Case, rust: &Option<Toposort>) -> String {
    let wide = |nodes: &[usize]| -> Vec<u64> { nodes.iter().map(|n| *n as u64).collect() };
    let mut line = "toposort".to_string();
    text::put(&mut line, "nodes", [case.nodes as u64]);
    let edges = edges_in(&case.edges);
    text::put(&mut line, "edges", edges.iter().flat_map(|(from, to)| [*from as u64, *to as u64]));
    let cut = &case.edges[edges.len() * 4..];
    if !cut.is_empty() {
        text::put(&mut line, "cut", cut.iter().map(|b| *b as u64));
    }
    text::put(&mut line, "out", [case.out_len as u64]);
    text::put(&mut line, "counts", [case.counts_len as u64]);
    match rust {
        Some(Toposort::Order(order)) => text::put(&mut line, "order", wide(order)),
        Some(Toposort::Cycle(cycle)) => text::put(&mut line, "cycle", wide(cycle)),
        Some(Toposort::Panic) => text::put(&mut line, "panic", []),
        None => {}
    }
    line
}

pub fn read(line: &str) -> Result<(Case, Option<Toposort>), String> {
    let (_, fields) = text::fields(line)?;
    let mut case = Case { nodes: 0, edges: vec![], out_len: 0, counts_len: 0 };
    let mut rust = None;
    for field in &fields {
        read_field(field, &mut case, &mut rust)?;
    }
    let words: Vec<&str> = fields.iter().map(|(word, _)| *word).collect();
    match ["nodes", "edges", "out", "counts"].iter().find(|w| !words.contains(w)) {
        Some(missing) => Err(format!("no {missing}")),
        None => Ok((case, rust)),
    }
}

fn read_field(
    (word, numbers): &Field,
    case: &mut Case,
    rust: &mut Option<Toposort>,
) -> Result<(), String> {
    match *word {
        "nodes" => case.nodes = text::single(word, numbers)?,
        "edges" => case.edges = read_edges(&text::list(word, numbers)?)?,
        "cut" => case.edges.extend(text::list::<u8>(word, numbers)?),
        "out" => case.out_len = text::single(word, numbers)?,
        "counts" => case.counts_len = text::single(word, numbers)?,
        "order" => *rust = Some(Toposort::Order(text::list(word, numbers)?)),
        "cycle" => *rust = Some(Toposort::Cycle(text::list(word, numbers)?)),
        "panic" => *rust = Some(Toposort::Panic),
        _ => return Err(format!("unknown field {word}")),
    }
    Ok(())
}

fn read_edges(ends: &[u16]) -> Result<Vec<u8>, String> {
    if !ends.len().is_multiple_of(2) {
        return Err("edges takes pairs".to_string());
    }
    let pairs: Vec<_> = ends.chunks_exact(2).map(|p| (p[0], p[1])).collect();
    Ok(edge_bytes(&pairs))
}
