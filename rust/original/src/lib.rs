//! Files of the original Rust code, compiled unchanged from its source tree, with small stand-ins for what they import.
//!
//! To use another file, add it to `FOLDERS` in `build.rs`, and a module for its folder here.

/// Folder `sdf` of the original.
pub mod sdf {
    use crate::vt::{TimeCode, TimeSampleMap, Value};
    use bytemuck::{Pod, Zeroable};

    include!(concat!(env!("OUT_DIR"), "/sdf.rs"));

    pub use path::*;
}

/// Folder `pcp` of the original.
pub mod pcp {
    include!(concat!(env!("OUT_DIR"), "/pcp.rs"));

    pub use mapping::MapFunction;

    pub mod relocates;
}

pub mod tf;
pub mod vt;

const _: () = assert!(!cfg!(debug_assertions), "the reference is the original without debug assertions");
