//! Items extracted from `relocates.rs` of the original, with what they import, and public functions that call them.

use crate::sdf::Path;
use rustc_hash::{FxHashMap, FxHashSet};

include!(concat!(env!("OUT_DIR"), "/relocates.rs"));

/// A stand-in: why a relocate is not valid on its own.
#[allow(clippy::enum_variant_names)]
enum InvalidRelocateReason {
    RootPrimSource,
    SourceEqualsTarget,
    TargetIsAncestor,
    TargetIsDescendant,
}

/// A stand-in: why a relocate conflicts with another one.
enum RelocateConflictReason {
    TargetIsSource,
    SourceIsTarget,
    TargetDescendant,
    SourceDescendant,
}

/// `analyze_relocate_occurrences`, with each status as its byte.
pub fn statuses(pairs: &[(Path, Path)]) -> Vec<u8> {
    let byte = |occurrence| match occurrence {
        RelocateOccurrence::Active => 0,
        RelocateOccurrence::DroppedStructural => 1,
        RelocateOccurrence::DroppedDuplicateSource => 2,
        RelocateOccurrence::DroppedConflict => 3,
    };
    analyze_relocate_occurrences(pairs).into_iter().map(byte).collect()
}

/// `chain_through_relocates`.
pub fn chained(path: &Path, relocates: &[(Path, Path)], skip_source: Option<&Path>) -> Path {
    chain_through_relocates(path, relocates, skip_source)
}

/// `shift_through_nearest_ancestor`.
pub fn shifted(endpoint: &Path, renames: &[(Path, Path)]) -> Path {
    shift_through_nearest_ancestor(endpoint, renames)
}
