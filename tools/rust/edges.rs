//! Stand-in for topo/edges.rs: the names only have to exist.
pub(crate) fn compute_edges() {}
pub(crate) fn compute_blue_edges() {}
