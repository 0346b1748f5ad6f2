//! What a statement holds of leaves goes up to the while that they end. Its bits are those of a node
//! that leaves and that nothing uses yet.

use super::planes::{Plane, Planes};

/// The node takes over the leaves of its parts, which stand under its condition.
#[inline(always)]
pub fn pass_on<const WORDS: usize>(
    planes: &mut Planes<WORDS>,
    node: usize,
    parts: [usize; 2],
    mut local: bool,
) {
    if !parts.iter().any(|&part| planes.has(Plane::Leaves, part)) {
        return;
    }
    for part in parts {
        local |= is_left_locally(planes, part);
    }
    planes.put(Plane::Leaves, node);
    if local {
        planes.put(Plane::Used, node);
    }
}

/// Whether a part has a leave under an if whose condition is not single. Its leaves end here.
#[inline(always)]
pub fn is_left_locally<const WORDS: usize>(planes: &mut Planes<WORDS>, part: usize) -> bool {
    planes.take(Plane::Leaves, part) && planes.has(Plane::Used, part)
}
