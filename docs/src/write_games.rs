//! Writes every game of the families into a folder: NAME.qdimacs, NAME.mrp, and
//! in NAME.printed what the bench program prints for them.

mod families;
mod second;

use std::path::Path;

/// Write one game's three files.
fn write_game(folder: &Path, game: &families::Game) -> std::io::Result<()> {
    std::fs::write(folder.join(format!("{}.qdimacs", game.name)), &game.text)?;
    std::fs::write(folder.join(format!("{}.mrp", game.name)), &game.proof)?;
    let printed = second::printed(&game.text, &game.proof);
    std::fs::write(folder.join(format!("{}.printed", game.name)), printed)
}

/// The folder is the only argument; it is made where it is missing.
fn main() -> std::io::Result<()> {
    let Some(folder) = std::env::args().nth(1) else {
        eprintln!("usage: write_games DIR");
        std::process::exit(2);
    };
    let folder = Path::new(&folder);
    std::fs::create_dir_all(folder)?;
    let mut games = families::all_games();
    games.extend(families::games_of_heads());
    for game in &games {
        write_game(folder, game)?;
    }
    println!("games written: {}", games.len());
    Ok(())
}
