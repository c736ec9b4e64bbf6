//! The entry `toposort`: its checks in their order, and what it leaves in the lent
//! bytes. The search itself is asked of the Rust.
use super::{
    Refusal,
    outputs::{counts_then_zeros, zeros_after},
    word,
};
use crate::bytes::{half_at, put_half};

/// What the search finds in a graph whose edges all join nodes.
#[derive(Clone, Copy)]
pub enum Found<'a> {
    Order(&'a [usize]),
    Cycle(&'a [usize]),
}

pub struct Answer {
    pub word: u64,
    pub out_nodes: Vec<u8>,
    pub counts: Vec<u8>,
}

/// What is refused before the search, first fault first.
pub fn refusal(nodes: u32, edges: &[u8], out_len: usize) -> Option<Refusal> {
    let refused = |number, address| Some(Refusal { number, section: 0, address });

    // More nodes than 1,024 units: 2 at the first too many.
    if nodes > 1024 {
        return refused(2, 1024);
    }
    // Bytes that aren't whole records: 1 at the number of whole ones, as far as 32 bits go.
    let whole = edges.len() / 4;
    if !edges.len().is_multiple_of(4) {
        return refused(1, u32::try_from(whole).unwrap_or(0xFFFF_FFFF));
    }
    // "2,048 edges": 2 at the first too many.
    if whole > 2048 {
        return refused(2, 2048);
    }
    // "62 edge from or to no node", "address is the edge's number".
    for edge in 0..whole {
        let from = half_at(edges, 4 * edge) as u32;
        let to = half_at(edges, 4 * edge + 2) as u32;
        if from >= nodes || to >= nodes {
            return refused(62, edge as u32);
        }
    }
    // "76 unit table shorter than the nodes".
    if out_len / 2 < nodes as usize {
        return refused(76, 0);
    }
    None
}

/// `None` if the search decides and `found` isn't known.
pub fn answer(
    nodes: u32,
    edges: &[u8],
    out_len: usize,
    counts_len: usize,
    found: Option<Found>,
) -> Option<Answer> {
    let refused = refusal(nodes, edges, out_len);
    let (refused, kept) = match (refused, found) {
        (Some(_), _) => (refused, &[][..]),
        (None, Some(Found::Order(order))) => (None, order),
        // "61 cycle, left in the unit table, zeros after".
        (None, Some(Found::Cycle(cycle))) => {
            (Some(Refusal { number: 61, section: 0, address: 0 }), cycle)
        }
        (None, None) => return None,
    };
    Some(Answer {
        word: word(refused),
        out_nodes: nodes_then_zeros(kept, out_len),
        counts: counts_then_zeros(&[kept.len()], counts_len),
    })
}

fn nodes_then_zeros(kept: &[usize], len: usize) -> Vec<u8> {
    let mut bytes = vec![];
    for &node in kept {
        put_half(&mut bytes, u16::try_from(node).unwrap());
    }
    zeros_after(bytes, len)
}
