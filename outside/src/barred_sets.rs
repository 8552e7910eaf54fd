//! Sets of barred points to try, as the words that the calls take.

use crate::definition::way_back::distances;
use crate::definition::without::is_barred;
use crate::definition::{Graph, Vertex, NONE_BARRED};
use crate::random::Random;

/// The set with these points.
pub fn set(points: impl IntoIterator<Item = Vertex>) -> u64 {
    points.into_iter().fold(NONE_BARRED, |set, v| set | 1 << v)
}

/// The points of the set, ascending.
pub fn points(barred: u64) -> Vec<Vertex> {
    (0..64).filter(|&v| is_barred(barred, v)).collect()
}

/// Every set of points below n.
pub fn all(n: usize) -> std::ops::Range<u64> {
    0..1 << n
}

/// A way to choose barred points of a plan.
pub type Choice = fn(&mut Random, &Graph) -> u64;

pub fn none(_: &mut Random, _: &Graph) -> u64 {
    NONE_BARRED
}

/// No point, one, all, all but one, all neighbours of one, all that one leads to over any number of links, or each with
/// the same chance. Without its neighbours a point is a piece of its own.
pub fn any(random: &mut Random, graph: &Graph) -> u64 {
    let n = graph.size();
    if n == 0 {
        return NONE_BARRED;
    }
    let u = random.below(n);
    match random.below(12) {
        0..=1 => NONE_BARRED,
        2 => set([u]),
        3 => set(0..n),
        4 => set((0..n).filter(|&v| v != u)),
        5 => set((0..n).filter(|&v| graph.leads_to(u, v))),
        6 => {
            let reached = distances(graph, u);
            set((0..n).filter(|&v| reached[v].is_some()))
        }
        _ => {
            let chance = random.pick(&[10, 20, 40, 80]);
            set((0..n).filter(|_| random.percent(chance)))
        }
    }
}

#[cfg(test)]
mod tests {
    use super::*;
    use crate::graphs::plan;

    #[test]
    fn a_set_has_a_bit_for_each_point() {
        assert_eq!(set([0, 3, 63]), 1 << 63 | 0b1001);
        assert_eq!(points(1 << 63 | 0b1001), [0, 3, 63]);
        assert_eq!((set(0..64), set([])), (!0, 0));
        assert_eq!(all(2).collect::<Vec<u64>>(), [0, 1, 2, 3]);
        assert_eq!(all(0).count(), 1);
    }

    #[test]
    fn random_sets_have_points_of_the_plan_only_and_are_of_every_size() {
        let mut random = Random::new(1);
        let ring = Graph::from_plan(&plan(5, &[(0, 1), (1, 2), (2, 3), (3, 4), (4, 0)]));
        let sets: Vec<u64> = (0..1000).map(|_| any(&mut random, &ring)).collect();
        assert!(sets.iter().all(|barred| *barred < 1 << 5));
        assert!((0..=5).all(|size| sets.iter().any(|barred| barred.count_ones() == size)));
        assert_eq!(any(&mut random, &Graph::from_plan(&[])), NONE_BARRED);
        assert_eq!(none(&mut random, &ring), NONE_BARRED);
    }
}
