//! Fault triples, from the sentences of 01 and 02, by trying all points.
//!
//!   is_violation kind a b c     a, b, c stand in the fault relation                [01, 02: fault triple]
//!   first_violation kind        the first of them                                  [01: first triple]
//!   first_violation_where       the first of those with such a c

use super::{Graph, Kind, Position, Vertex, BFS, DFS, GENERIC, LEX_BFS, LEX_DFS, MCS, MNS};

/// Where each point stands in the walk.
struct Places(Vec<Option<Position>>);

impl Places {
    fn of(graph: &Graph, ordering: &[u8]) -> Places {
        let place = |v: Vertex| ordering.iter().position(|&u| u as Vertex == v);
        Places(graph.vertices().map(place).collect())
    }

    fn placed(&self, v: Vertex) -> bool {
        self.0[v].is_some()
    }

    /// Both are placed, u before v.
    fn before(&self, u: Vertex, v: Vertex) -> bool {
        matches!((self.0[u], self.0[v]), (Some(p), Some(q)) if p < q)
    }

    /// Placed points go by place and come before unplaced ones, which go by number.
    fn rank(&self, v: Vertex) -> (bool, usize) {
        match self.0[v] {
            Some(p) => (false, p),
            None => (true, v),
        }
    }
}

/// Where c may stand is said by 01 for six kinds and by 02 for MCS. The last condition is that no point excuses b; in
/// MCS, that c has more neighbours before b than b has. In a one-way plan a or d "linked to" b or c is "leads to".
fn is_violation(
    kind: Kind,
    graph: &Graph,
    places: &Places,
    (a, b, c): (Vertex, Vertex, Vertex),
) -> bool {
    let excuses = |d: Vertex| {
        graph.leads_to(d, b)
            && places.before(d, b)
            && match kind {
                GENERIC => true,
                BFS => places.before(d, a),
                DFS => places.before(a, d),
                LEX_BFS => places.before(d, a) && !graph.leads_to(d, c),
                LEX_DFS => places.before(a, d) && !graph.leads_to(d, c),
                MNS => !graph.leads_to(d, c),
                _ => unreachable!("no such kind"),
            }
    };
    let neighbours_before_b = |v: Vertex| {
        graph.vertices().filter(|&d| graph.leads_to(d, v) && places.before(d, b)).count()
    };
    let later = match kind {
        MCS => !places.before(c, b),
        _ => places.before(b, c) || !places.placed(c),
    };
    places.before(a, b)
        && later
        && graph.leads_to(a, c)
        && !graph.leads_to(a, b)
        && match kind {
            MCS => neighbours_before_b(c) > neighbours_before_b(b),
            _ => !graph.vertices().any(excuses),
        }
}

/// The triple with the earliest b, then the earliest a, then the first c.
pub fn first_violation(
    kind: Kind,
    graph: &Graph,
    ordering: &[u8],
) -> Option<(Vertex, Vertex, Vertex)> {
    first_violation_where(kind, graph, ordering, |_| true)
}

/// The first by the same rule of the triples whose c is such.
pub fn first_violation_where(
    kind: Kind,
    graph: &Graph,
    ordering: &[u8],
    such: impl Fn(Vertex) -> bool,
) -> Option<(Vertex, Vertex, Vertex)> {
    let places = Places::of(graph, ordering);
    let mut violations = Vec::new();
    for a in graph.vertices() {
        for b in graph.vertices() {
            for c in graph.vertices().filter(|&c| such(c)) {
                if is_violation(kind, graph, &places, (a, b, c)) {
                    violations.push((a, b, c));
                }
            }
        }
    }
    violations.into_iter().min_by_key(|&(a, b, c)| (places.rank(b), places.rank(a), places.rank(c)))
}
