//! Times checking by the second checker and by the library on the same files.
//! The tables come full of old words; that they are cleared is inside the timed
//! part of both. With `--cfg selftest` only the second checker is timed.
//!
//! timing [ROUNDS]

mod families;
mod second;
#[cfg(not(selftest))]
mod tested;

use families::Game;
use std::hint::black_box;
use std::time::Instant;

/// The five tables at their minimum lengths.
struct Tables {
    prefix: Vec<u32>,
    clauses: Vec<u64>,
    lines: Vec<u64>,
    nodes: Vec<u32>,
    roots: Vec<u32>,
}

impl Tables {
    /// Tables full of old words.
    fn used() -> Tables {
        Tables {
            prefix: vec![0xA5A5_A5A5; second::PREFIX_WORDS],
            clauses: vec![0xA5A5_A5A5_A5A5_A5A5; second::CLAUSE_WORDS],
            lines: vec![0xA5A5_A5A5_A5A5_A5A5; second::LINE_WORDS],
            nodes: vec![0xA5A5_A5A5; second::MAP_WORDS],
            roots: vec![0xA5A5_A5A5; second::MAP_WORDS],
        }
    }
}

/// A service that checks a formula text with a proof.
type Check =
    fn(&[u8], &[u8], &mut [u32], &mut [u64], &mut [u64], &mut [u32], &mut [u32]) -> second::Reply;

/// The time of one check in microseconds; the files must be accepted.
fn time(check: Check, game: &Game) -> f64 {
    let mut tables = Tables::used();
    let start = Instant::now();
    let reply = check(
        black_box(&game.text),
        black_box(&game.proof),
        &mut tables.prefix,
        &mut tables.clauses,
        &mut tables.lines,
        &mut tables.nodes,
        &mut tables.roots,
    );
    let taken = start.elapsed();
    black_box(&tables.roots);
    assert_eq!(reply.number, 0, "{} is refused", game.name);
    taken.as_secs_f64() * 1e6
}

/// The value in the middle, and the least: on a busy machine the least says more.
fn median_and_least(mut times: Vec<f64>) -> (f64, f64) {
    times.sort_by(f64::total_cmp);
    (times[times.len() / 2], times[0])
}

/// The files that are timed.
fn timed_games() -> Vec<Game> {
    vec![
        families::select_heavy(1_024, 256, 16),
        families::select_heavy(1_024, 500, 16),
        families::deep_maps(1_024, 16),
        families::shared_maps(1_024, 16),
        families::repeated(&families::squared_equality(6), 1_024),
        families::repeated(&families::equality(16), 1_024),
        families::squared_equality(6),
        families::equality(16),
        families::games_around_g()[0].clone(),
    ]
}

/// Time one game, the two checkers in turn and in both orders, and print the ratios.
#[cfg(not(selftest))]
fn time_game(game: &Game, rounds: usize) {
    let (mut ours, mut theirs) = (Vec::new(), Vec::new());
    for round in 0..rounds {
        if round % 2 == 0 {
            ours.push(time(second::check, game));
            theirs.push(time(tested::check, game));
        } else {
            theirs.push(time(tested::check, game));
            ours.push(time(second::check, game));
        }
    }
    let (ours, our_least) = median_and_least(ours);
    let (theirs, their_least) = median_and_least(theirs);
    println!(
        "{:<24} {:>10.1} {:>10.1} {:>7.2}   {:>10.1} {:>10.1} {:>7.2}",
        game.name,
        ours,
        theirs,
        theirs / ours,
        our_least,
        their_least,
        their_least / our_least
    );
}

/// Time one game with the second checker alone.
#[cfg(selftest)]
fn time_game(game: &Game, rounds: usize) {
    let times = (0..rounds).map(|_| time(second::check, game)).collect();
    let (middle, least) = median_and_least(times);
    println!("{:<24} {:>10.1} {:>10.1}", game.name, middle, least);
}

/// Every game, so many rounds each.
fn main() {
    let rounds = std::env::args()
        .nth(1)
        .and_then(|word| word.parse().ok())
        .unwrap_or(51);
    println!("{} rounds, microseconds", rounds);
    if cfg!(selftest) {
        println!("{:<24} {:>10} {:>10}", "file", "median", "least");
    } else {
        println!(
            "{:<24} {:>10} {:>10} {:>7}   {:>10} {:>10} {:>7}",
            "file", "second", "library", "ratio", "second", "library", "ratio"
        );
        println!(
            "{:<24} {:>29}   {:>29}",
            "", "medians, library/second", "least, library/second"
        );
    }
    for game in timed_games() {
        time_game(&game, rounds);
    }
}
