//! The published Rust: `error` and `pgs`, where pgs.rs expects them (`crate::error`).

include!(concat!(env!("OUT_DIR"), "/modules.rs"));
