//! A stand-in for the library: the second checker behind the C signatures, so
//! that the linking and the comparison itself can be tried out.

mod second;

use second::{Played, Reply};

/// The slice of a pointer and a length.
unsafe fn slice<'a, T>(first: *const T, length: usize) -> &'a [T] {
    unsafe { std::slice::from_raw_parts(first, length) }
}

/// The lent slice of a pointer and a length.
unsafe fn lent<'a, T>(first: *mut T, length: usize) -> &'a mut [T] {
    unsafe { std::slice::from_raw_parts_mut(first, length) }
}

/// Read a formula.
#[no_mangle]
pub unsafe extern "C" fn malintok_read(
    text: *const u8,
    text_len: usize,
    prefix: *mut u32,
    prefix_len: usize,
    clauses: *mut u64,
    clauses_len: usize,
) -> Reply {
    unsafe {
        second::read(
            slice(text, text_len),
            lent(prefix, prefix_len),
            lent(clauses, clauses_len),
        )
    }
}

/// Check a formula text with a proof.
#[no_mangle]
pub unsafe extern "C" fn malintok_check(
    text: *const u8,
    text_len: usize,
    proof: *const u8,
    proof_len: usize,
    prefix: *mut u32,
    prefix_len: usize,
    clauses: *mut u64,
    clauses_len: usize,
    lines: *mut u64,
    lines_len: usize,
    nodes: *mut u32,
    nodes_len: usize,
    roots: *mut u32,
    roots_len: usize,
) -> Reply {
    unsafe {
        second::check(
            slice(text, text_len),
            slice(proof, proof_len),
            lent(prefix, prefix_len),
            lent(clauses, clauses_len),
            lent(lines, lines_len),
            lent(nodes, nodes_len),
            lent(roots, roots_len),
        )
    }
}

/// Play one map on given settings.
#[no_mangle]
pub unsafe extern "C" fn malintok_play(
    column: u32,
    root: u32,
    nodes: *const u32,
    nodes_len: usize,
    settings: u64,
) -> Played {
    unsafe { second::play(column, root, slice(nodes, nodes_len), settings) }
}
