//! The checker under test: the three services of the static library, or with
//! `--cfg selftest` those of the second checker itself.

#![allow(dead_code)]

#[cfg(not(selftest))]
use crate::second::{Played, Reply};

#[cfg(not(selftest))]
mod library {
    use super::{Played, Reply};

    extern "C" {
        pub fn malintok_read(
            text: *const u8,
            text_len: usize,
            prefix: *mut u32,
            prefix_len: usize,
            clauses: *mut u64,
            clauses_len: usize,
        ) -> Reply;
        pub fn malintok_check(
            text: *const u8,
            text_len: usize,
            proof: *const u8,
            proof_len: usize,
            prefix: *mut u32,
            prefix_len: usize,
            clauses: *mut u64,
            clauses_len: usize,
            lines: *mut u64,
            lines_len: usize,
            nodes: *mut u32,
            nodes_len: usize,
            roots: *mut u32,
            roots_len: usize,
        ) -> Reply;
        pub fn malintok_play(
            column: u32,
            root: u32,
            nodes: *const u32,
            nodes_len: usize,
            settings: u64,
        ) -> Played;
    }
}

/// Read a formula.
#[cfg(not(selftest))]
pub fn read(text: &[u8], prefix: &mut [u32], clauses: &mut [u64]) -> Reply {
    // Each pointer comes with the length of the slice it was taken from.
    unsafe {
        library::malintok_read(
            text.as_ptr(),
            text.len(),
            prefix.as_mut_ptr(),
            prefix.len(),
            clauses.as_mut_ptr(),
            clauses.len(),
        )
    }
}

/// Check a formula text with a proof.
#[cfg(not(selftest))]
pub fn check(
    text: &[u8],
    proof: &[u8],
    prefix: &mut [u32],
    clauses: &mut [u64],
    lines: &mut [u64],
    nodes: &mut [u32],
    roots: &mut [u32],
) -> Reply {
    // Each pointer comes with the length of the slice it was taken from.
    unsafe {
        library::malintok_check(
            text.as_ptr(),
            text.len(),
            proof.as_ptr(),
            proof.len(),
            prefix.as_mut_ptr(),
            prefix.len(),
            clauses.as_mut_ptr(),
            clauses.len(),
            lines.as_mut_ptr(),
            lines.len(),
            nodes.as_mut_ptr(),
            nodes.len(),
            roots.as_mut_ptr(),
            roots.len(),
        )
    }
}

/// Play one map on given settings.
#[cfg(not(selftest))]
pub fn play(column: u32, root: u32, nodes: &[u32], settings: u64) -> Played {
    // The pointer comes with the length of the slice it was taken from.
    unsafe { library::malintok_play(column, root, nodes.as_ptr(), nodes.len(), settings) }
}

#[cfg(selftest)]
pub use crate::second::{check, play, read};
