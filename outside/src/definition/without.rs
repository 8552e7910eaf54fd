//! A plan without its barred points, from the sentences of 02: they and their links are removed, and the other points
//! are renumbered in ascending order.
//!
//!   Without              the smaller plan, and what its points were called        [02: K8]
//!   name i               the point that became i
//!   number v             what v became; none where it is barred
//!   numbered list        a list with each point renumbered, and the barred ones left out
//!   named list           a list of the smaller plan's points, each named back

use super::{Graph, Vertex};

pub struct Without {
    graph: Graph,
    /// For each point of the smaller plan, what it is called in the whole plan. Ascending.
    names: Vec<Vertex>,
}

/// The plan with only these points, each called by its index in the list.
fn kept(graph: &Graph, names: &[Vertex]) -> Graph {
    let row = |&u: &Vertex| {
        let linked = |i: &Vertex| graph.leads_to(u, names[*i]);
        (0..names.len()).filter(linked).map(|i| 1u64 << i).sum()
    };
    Graph { rows: names.iter().map(row).collect() }
}

impl Without {
    /// Bits of `barred` that stand for no point of the plan are ignored: calls refuse them before.
    pub fn new(graph: &Graph, barred: u64) -> Without {
        let names: Vec<Vertex> = graph.vertices().filter(|&v| !is_barred(barred, v)).collect();
        Without { graph: kept(graph, &names), names }
    }

    /// The smaller plan.
    pub fn graph(&self) -> &Graph {
        &self.graph
    }

    /// How many points are not barred.
    pub fn size(&self) -> usize {
        self.names.len()
    }

    pub fn name(&self, i: Vertex) -> Vertex {
        self.names[i]
    }

    pub fn number(&self, v: Vertex) -> Option<Vertex> {
        self.names.iter().position(|&name| name == v)
    }

    pub fn numbered(&self, list: &[u8]) -> Vec<u8> {
        list.iter().filter_map(|&v| self.number(v as Vertex)).map(|i| i as u8).collect()
    }

    pub fn named(&self, list: &[u8]) -> Vec<u8> {
        list.iter().map(|&i| self.name(i as Vertex) as u8).collect()
    }
}

/// The set has v's bit; v is below 64.
pub fn is_barred(barred: u64, v: Vertex) -> bool {
    barred >> v & 1 == 1
}

#[cfg(test)]
mod tests;
