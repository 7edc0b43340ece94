//! The original, compiled from its own files, one copy for each grid size; empty where they are not at hand.

#[cfg(original)]
include!(concat!(env!("OUT_DIR"), "/originals.rs"));
