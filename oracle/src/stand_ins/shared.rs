//! Stand-in for move-borrow-graph's shared.rs, which document 000 lacks. Pairs are taken one by one, ascending by
//! old name, as in graph.rs; without a crossing (document 01's condition) this changes all names together.

use std::collections::{BTreeMap, BTreeSet};

pub(crate) fn remap_set<T: Copy + Ord>(set: &mut BTreeSet<T>, id_map: &BTreeMap<T, T>) {
    for (old, new) in id_map {
        if set.remove(old) {
            set.insert(*new);
        }
    }
}
