//! Of the original's region.rs only `words`, the number of words of a mask.

include!(concat!(env!("OUT_DIR"), "/core/region.rs"));

/// The original's `words`, for the harness.
pub fn mask_words(nodes: usize) -> usize {
    words(nodes)
}
