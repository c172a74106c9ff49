//! Prints what the bench program prints for a formula file and a proof file.

mod second;

use std::io::Write;

/// The bytes of a file; one that cannot be read counts as empty.
fn bytes_of(name: &str) -> Vec<u8> {
    std::fs::read(name).unwrap_or_default()
}

/// The file names come from the arguments; without them the game in this folder.
fn main() {
    let arguments: Vec<String> = std::env::args().skip(1).collect();
    let text_name = arguments.first().map_or("game.qdimacs", |name| name);
    let proof_name = arguments.get(1).map_or("game.mrp", |name| name);
    let printed = second::printed(&bytes_of(text_name), &bytes_of(proof_name));
    let _ = std::io::stdout().write_all(printed.as_bytes());
}
