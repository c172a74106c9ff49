//! Compares the three services of the library with the second checker: replies
//! and every word of every lent table, guard words included.
//!
//! compare SEED CASES [trace]
//!
//! CASES is the number of random cases of each kind; the written ones always
//! run. With trace each case is named on the error output before it runs. The
//! exit status is 1 if there was a difference. Cases that differ are printed
//! and saved in the current folder as difference-N.qdimacs, .mrp and .nodes.

mod families;
mod generator;
mod second;
mod tested;
mod texts;

use families::Game;
use generator::{Chance, Derivation};
use second::{Played, Reply};

/// Guard words on both sides of each lent table.
const GUARD: usize = 16;
/// So many differences are printed fully.
const PRINTED: u64 = 5;
/// The refusal numbers of the three services.
const NUMBERS: [u32; 27] = [
    1, 2, 3, 4, 5, 6, 7, 8, 9, 10, 11, 12, 13, 21, 22, 23, 24, 25, 26, 27, 28, 29, 30, 31, 32, 41,
    42,
];

// ------------------------------------------------------------------ tables

/// The lengths at which the five tables are lent.
#[derive(Clone, Copy, Debug)]
struct Lengths {
    prefix: usize,
    clauses: usize,
    lines: usize,
    nodes: usize,
    roots: usize,
}

/// The minimum lengths.
const EXACT: Lengths = Lengths {
    prefix: second::PREFIX_WORDS,
    clauses: second::CLAUSE_WORDS,
    lines: second::LINE_WORDS,
    nodes: second::MAP_WORDS,
    roots: second::MAP_WORDS,
};

/// The five tables, each between its guard words.
#[derive(Clone, Default, PartialEq)]
struct Tables {
    prefix: Vec<u32>,
    clauses: Vec<u64>,
    lines: Vec<u64>,
    nodes: Vec<u32>,
    roots: Vec<u32>,
}

/// The part of a guarded table that is lent.
fn lent<T>(table: &mut [T]) -> &mut [T] {
    let end = table.len() - GUARD;
    &mut table[GUARD..end]
}

/// Hold bytes between others that would change them if they were read too.
fn hold(holder: &mut Vec<u8>, bytes: &[u8]) {
    holder.clear();
    holder.extend_from_slice(&[b'7'; GUARD]);
    holder.extend_from_slice(bytes);
    holder.extend_from_slice(&[b'7'; GUARD]);
}

/// The bytes that are held.
fn held(holder: &[u8]) -> &[u8] {
    &holder[GUARD..holder.len() - GUARD]
}

impl Tables {
    /// Copy all words from other tables.
    fn copy_from(&mut self, other: &Tables) {
        self.prefix.clone_from(&other.prefix);
        self.clauses.clone_from(&other.clauses);
        self.lines.clone_from(&other.lines);
        self.nodes.clone_from(&other.nodes);
        self.roots.clone_from(&other.roots);
    }

    /// The nodes table as it was lent.
    fn lent_nodes(&self) -> &[u32] {
        &self.nodes[GUARD..self.nodes.len() - GUARD]
    }

    /// The roots table as it was lent.
    fn lent_roots(&self) -> &[u32] {
        &self.roots[GUARD..self.roots.len() - GUARD]
    }
}

/// Lengths of tables: mostly long enough, else some table short.
fn random_lengths(chance: &mut Chance) -> Lengths {
    let mut longer = |least: usize| {
        least
            + if chance.percent(50) {
                0
            } else {
                chance.between(1, 40)
            }
    };
    let mut lengths = Lengths {
        prefix: longer(EXACT.prefix),
        clauses: longer(EXACT.clauses),
        lines: longer(EXACT.lines),
        nodes: longer(EXACT.nodes),
        roots: longer(EXACT.roots),
    };
    if chance.percent(6) {
        for _ in 0..chance.between(1, 3) {
            shorten(chance, &mut lengths);
        }
    }
    lengths
}

/// Make one table too short: mostly by one word.
fn shorten(chance: &mut Chance, lengths: &mut Lengths) {
    let (table, least) = match chance.below(5) {
        0 => (&mut lengths.prefix, EXACT.prefix),
        1 => (&mut lengths.clauses, EXACT.clauses),
        2 => (&mut lengths.lines, EXACT.lines),
        3 => (&mut lengths.nodes, EXACT.nodes),
        _ => (&mut lengths.roots, EXACT.roots),
    };
    *table = match chance.below(4) {
        0 => 0,
        1 => chance.below(least),
        _ => least - 1,
    };
}

// ------------------------------------------------------------------ counts

/// How often each number was answered, for one service and one kind of cases.
struct Count {
    service: &'static str,
    kind: &'static str,
    times: [u64; 43],
}

/// The state of a run: counts, differences, the tables of both checkers.
struct Run {
    trace: bool,
    counts: Vec<Count>,
    cases: u64,
    differences: u64,
    semantic: u64,
    most_lines: usize,
    steps: Steps,
    pairings: [u64; 2],
    words: Vec<u64>,
    came: Tables,
    ours: Tables,
    theirs: Tables,
    text: Vec<u8>,
    proof: Vec<u8>,
}

impl Run {
    /// A run without cases; the words that fill the tables come from the seed.
    fn new(seed: u64, trace: bool) -> Run {
        let mut chance = Chance::new(seed);
        Run {
            trace,
            counts: Vec::new(),
            cases: 0,
            differences: 0,
            semantic: 0,
            most_lines: 0,
            steps: Steps::default(),
            pairings: [0; 2],
            words: (0..50_000).map(|_| chance.word()).collect(),
            came: Tables::default(),
            ours: Tables::default(),
            theirs: Tables::default(),
            text: Vec::new(),
            proof: Vec::new(),
        }
    }

    /// Count an answer.
    fn count(&mut self, service: &'static str, kind: &'static str, number: u32) {
        let number = (number as usize).min(42);
        let found = self
            .counts
            .iter_mut()
            .find(|c| c.service == service && c.kind == kind);
        match found {
            Some(count) => count.times[number] += 1,
            None => {
                let mut count = Count {
                    service,
                    kind,
                    times: [0; 43],
                };
                count.times[number] = 1;
                self.counts.push(count);
            }
        }
    }

    /// Name a case before it runs, where that is wanted.
    fn begin(&mut self, service: &str, kind: &str) {
        self.cases += 1;
        if self.trace {
            eprintln!("case {}: {} {}", self.cases, service, kind);
        }
    }

    /// Fill the tables of both checkers with equal random words.
    fn lend(&mut self, chance: &mut Chance, lengths: &Lengths) {
        let words = &self.words;
        let mut from = |length: usize| {
            let start = chance.below(words.len() - length - 2 * GUARD);
            &words[start..start + length + 2 * GUARD]
        };
        let short = |words: &[u64]| words.iter().map(|&word| word as u32).collect::<Vec<u32>>();
        self.came.prefix = short(from(lengths.prefix));
        self.came.clauses = from(lengths.clauses).to_vec();
        self.came.lines = from(lengths.lines).to_vec();
        self.came.nodes = short(from(lengths.nodes));
        self.came.roots = short(from(lengths.roots));
        self.ours.copy_from(&self.came);
        self.theirs.copy_from(&self.came);
    }

    /// Read a text with both checkers and compare.
    fn read(
        &mut self,
        chance: &mut Chance,
        kind: &'static str,
        text: &[u8],
        lengths: &Lengths,
    ) -> Reply {
        self.begin("read", kind);
        self.lend(chance, lengths);
        hold(&mut self.text, text);
        let theirs = tested::read(
            held(&self.text),
            lent(&mut self.theirs.prefix),
            lent(&mut self.theirs.clauses),
        );
        let ours = second::read(
            text,
            lent(&mut self.ours.prefix),
            lent(&mut self.ours.clauses),
        );
        self.count("read", kind, ours.number);
        let broken = self.broken_rule(&ours, false);
        if theirs != ours || self.theirs != self.ours || broken.is_some() {
            self.differ("read", kind, text, None, lengths, &ours, &theirs, broken);
        }
        ours
    }

    /// Check a text with a proof with both checkers and compare.
    fn check(
        &mut self,
        chance: &mut Chance,
        kind: &'static str,
        text: &[u8],
        proof: &[u8],
        lengths: &Lengths,
    ) -> Reply {
        self.begin("check", kind);
        self.lend(chance, lengths);
        hold(&mut self.text, text);
        hold(&mut self.proof, proof);
        let tables = &mut self.theirs;
        let theirs = tested::check(
            held(&self.text),
            held(&self.proof),
            lent(&mut tables.prefix),
            lent(&mut tables.clauses),
            lent(&mut tables.lines),
            lent(&mut tables.nodes),
            lent(&mut tables.roots),
        );
        let tables = &mut self.ours;
        let ours = second::check(
            text,
            proof,
            lent(&mut tables.prefix),
            lent(&mut tables.clauses),
            lent(&mut tables.lines),
            lent(&mut tables.nodes),
            lent(&mut tables.roots),
        );
        self.count("check", kind, ours.number);
        let broken = self.broken_rule(&ours, true);
        if theirs != ours || self.theirs != self.ours || broken.is_some() {
            self.differ(
                "check",
                kind,
                text,
                Some(proof),
                lengths,
                &ours,
                &theirs,
                broken,
            );
        }
        self.most_lines = self.most_lines.max(ours.lines as usize);
        ours
    }

    /// What the second checker itself must have left in the tables, whatever the
    /// library does: as they came, or zero, or nothing touched past the lengths.
    fn broken_rule(&self, reply: &Reply, checking: bool) -> Option<&'static str> {
        let (came, ours) = (&self.came, &self.ours);
        if reply.number == 1 || reply.number == 2 {
            return if came == ours {
                None
            } else {
                Some("numbers 1 and 2 leave all tables")
            };
        }
        let zero = reply.number != 0;
        let whole = kept(&came.prefix, &ours.prefix, EXACT.prefix, zero)
            && kept(&came.clauses, &ours.clauses, EXACT.clauses, zero);
        let rest = if checking {
            kept(&came.lines, &ours.lines, EXACT.lines, zero)
                && kept(&came.nodes, &ours.nodes, EXACT.nodes, zero)
                && kept(&came.roots, &ours.roots, EXACT.roots, zero)
        } else {
            came.lines == ours.lines && came.nodes == ours.nodes && came.roots == ours.roots
        };
        if whole && rest {
            None
        } else {
            Some("named words zero, others untouched")
        }
    }

    /// Play with both checkers and compare.
    fn play(
        &mut self,
        kind: &'static str,
        column: u32,
        root: u32,
        nodes: &[u32],
        settings: u64,
    ) -> Played {
        self.begin("play", kind);
        let theirs = tested::play(column, root, nodes, settings);
        let ours = second::play(column, root, nodes, settings);
        self.count("play", kind, ours.number);
        if theirs != ours {
            self.differences += 1;
            if self.differences <= PRINTED {
                println!(
                    "difference {} in play, {}, case {}",
                    self.differences, kind, self.cases
                );
                println!(
                    "  column {} root {} words {} settings {:#x}",
                    column,
                    root,
                    nodes.len(),
                    settings
                );
                println!("  second  {:?}", ours);
                println!("  library {:?}", theirs);
                print_walk(column, root, nodes, settings);
                let bytes: Vec<u8> = nodes.iter().flat_map(|word| word.to_le_bytes()).collect();
                save(self.differences, "nodes", &bytes);
            }
        }
        ours
    }

    /// Report a case of reading or checking that differs.
    #[allow(clippy::too_many_arguments)]
    fn differ(
        &mut self,
        service: &str,
        kind: &str,
        text: &[u8],
        proof: Option<&[u8]>,
        lengths: &Lengths,
        ours: &Reply,
        theirs: &Reply,
        broken: Option<&str>,
    ) {
        self.differences += 1;
        if self.differences > PRINTED {
            return;
        }
        println!(
            "difference {} in {}, {}, case {}",
            self.differences, service, kind, self.cases
        );
        println!("  {:?}", lengths);
        println!("  second  {:?}", ours);
        println!("  library {:?}", theirs);
        if let Some(rule) = broken {
            println!("  the second checker breaks a rule: {}", rule);
        }
        let (came, ours, theirs) = (&self.came, &self.ours, &self.theirs);
        print_words("prefix", &came.prefix, &ours.prefix, &theirs.prefix);
        print_words("clauses", &came.clauses, &ours.clauses, &theirs.clauses);
        print_words("lines", &came.lines, &ours.lines, &theirs.lines);
        print_words("nodes", &came.nodes, &ours.nodes, &theirs.nodes);
        print_words("roots", &came.roots, &ours.roots, &theirs.roots);
        println!("  text, {} bytes: \"{}\"", text.len(), shown(text));
        save(self.differences, "qdimacs", text);
        if let Some(proof) = proof {
            println!("  proof, {} bytes: {}", proof.len(), hex(proof));
            save(self.differences, "mrp", proof);
        }
    }

    /// Report that a written expectation was not met by the second checker.
    fn expect(&mut self, met: bool, what: &str) {
        if !met {
            self.differences += 1;
            if self.differences <= PRINTED {
                println!(
                    "difference {}: the second checker and the scope page: {}",
                    self.differences, what
                );
            }
        }
    }

    /// Report that the library's maps do not win the game.
    fn lost(&mut self, what: &str, text: &[u8], proof: &[u8]) {
        self.differences += 1;
        if self.differences <= PRINTED {
            println!("difference {}: a semantic test: {}", self.differences, what);
            println!("  text, {} bytes: \"{}\"", text.len(), shown(text));
            println!("  proof, {} bytes: {}", proof.len(), hex(proof));
            save(self.differences, "qdimacs", text);
            save(self.differences, "mrp", proof);
        }
    }
}

/// Whether a guarded table is untouched past its minimum length, and zero before if so wanted.
fn kept<T: PartialEq + Default>(came: &[T], left: &[T], least: usize, zero: bool) -> bool {
    let named = GUARD..GUARD + least;
    let untouched = came[..GUARD] == left[..GUARD] && came[named.end..] == left[named.end..];
    untouched && (!zero || left[named].iter().all(|word| *word == T::default()))
}

// ---------------------------------------------------------------- printing

/// The first words of a table in which the two checkers differ.
fn print_words<T: PartialEq + std::fmt::Debug>(name: &str, came: &[T], ours: &[T], theirs: &[T]) {
    let differing: Vec<usize> = (0..ours.len()).filter(|&k| ours[k] != theirs[k]).collect();
    if differing.is_empty() {
        return;
    }
    println!("  {} table: {} words differ", name, differing.len());
    for &k in differing.iter().take(4) {
        let word = k as i64 - GUARD as i64;
        println!(
            "    word {}: came {:?}, second {:?}, library {:?}",
            word, came[k], ours[k], theirs[k]
        );
    }
}

/// The words that a walk meets.
fn print_walk(column: u32, root: u32, nodes: &[u32], settings: u64) {
    let mut here = root;
    for _ in 0..12 {
        let place = 16 * (i64::from(here) - 1) + i64::from(column) - 1;
        let Some(&word) = usize::try_from(place)
            .ok()
            .and_then(|place| nodes.get(place))
        else {
            return;
        };
        println!("    node {}: word {:#x}", here, word);
        let second::Node::Branch { x, a, b } = second::node_of_word(word) else {
            return;
        };
        here = if second::has(settings, x) { b } else { a };
    }
}

/// A text as it can be printed; the middle of a long one is left out.
fn shown(text: &[u8]) -> String {
    if text.len() > 3_000 {
        return format!(
            "{} .. {}",
            text[..1_500].escape_ascii(),
            text[text.len() - 1_500..].escape_ascii()
        );
    }
    text.escape_ascii().to_string()
}

/// Bytes in hex; the middle of a long proof is left out.
fn hex(bytes: &[u8]) -> String {
    let digits = |bytes: &[u8]| {
        bytes
            .iter()
            .map(|byte| format!("{:02X} ", byte))
            .collect::<String>()
    };
    if bytes.len() > 1_600 {
        return format!(
            "{}.. {}",
            digits(&bytes[..800]),
            digits(&bytes[bytes.len() - 800..])
        );
    }
    digits(bytes)
}

/// Save a part of a differing case.
fn save(difference: u64, part: &str, bytes: &[u8]) {
    let _ = std::fs::write(format!("difference-{}.{}", difference, part), bytes);
}

// ----------------------------------------------------------- written cases

/// Texts written by hand: read, and checked with the proof of G.
fn written_texts(run: &mut Run, chance: &mut Chance) {
    let proof = families::proof_of_records(&families::G_RECORDS);
    for case in texts::all() {
        let reply = run.read(chance, "written texts", &case.text, &EXACT);
        let met = reply.number == case.number && reply.place == case.place;
        let met = met && reply.variable == 0 && reply.lines == 0;
        let says = format!(
            "\"{}\" is {} at {}",
            shown(&case.text),
            case.number,
            case.place
        );
        run.expect(met, &says);
        let lengths = random_lengths(chance);
        run.read(chance, "written texts", &case.text, &lengths);
        let reply = run.check(chance, "written texts", &case.text, &proof, &EXACT);
        run.expect(
            case.number == 0 || (reply.number, reply.place) == (case.number, case.place),
            &says,
        );
        let careless = generator::careless_proof(chance);
        let lengths = random_lengths(chance);
        run.check(chance, "written texts", &case.text, &careless, &lengths);
    }
}

/// Texts cut at every length.
fn cut_texts(run: &mut Run, chance: &mut Chance) {
    let proof = families::proof_of_records(&families::G_RECORDS);
    for text in texts::to_cut() {
        for length in 0..=text.len() {
            run.read(chance, "cut texts", &text[..length], &EXACT);
            run.check(chance, "cut texts", &text[..length], &proof, &EXACT);
        }
    }
}

/// Each table at lengths around its minimum, with good and bad texts.
fn table_lengths(run: &mut Run, chance: &mut Chance) {
    let game = families::equality(3);
    let long = vec![b' '; second::TEXT_BYTES + 1];
    let texts: [&[u8]; 4] = [&game.text, b"x", b"", &long];
    for text in texts {
        for table in 0..5 {
            for length in [-1_000_000i64, -1_000, -17, -16, -2, -1, 0, 1, 16, 1_000] {
                let moved = |least: usize| (least as i64 + length).max(0) as usize;
                let mut lengths = EXACT;
                match table {
                    0 => lengths.prefix = moved(EXACT.prefix),
                    1 => lengths.clauses = moved(EXACT.clauses),
                    2 => lengths.lines = moved(EXACT.lines),
                    3 => lengths.nodes = moved(EXACT.nodes),
                    _ => lengths.roots = moved(EXACT.roots),
                }
                run.read(chance, "table lengths", text, &lengths);
                run.check(chance, "table lengths", text, &game.proof, &lengths);
                run.check(chance, "table lengths", text, b"MRP", &lengths);
            }
        }
    }
}

/// The games of the families, with what the scope page says of them.
fn written_games(run: &mut Run, chance: &mut Chance) {
    let mut games = families::all_games();
    games.extend(families::games_of_heads());
    for game in &games {
        let reply = run.check(chance, "games", &game.text, &game.proof, &EXACT);
        if let Some(expected) = game.expected {
            let met = (reply.number, reply.place, reply.variable) == expected;
            run.expect(
                met,
                &format!("{} is {:?}, not {:?}", game.name, expected, reply),
            );
        }
        if reply.number == 0 {
            play_checked(run, chance, &reply, 40);
            win(run, chance, &game.text, &game.proof);
        }
        let lengths = random_lengths(chance);
        run.check(chance, "games", &game.text, &game.proof, &lengths);
    }
    game_g(run, chance);
}

/// What the scope page says of G word for word: its printing, its word, its plays.
fn game_g(run: &mut Run, chance: &mut Chance) {
    let proof = families::proof_of_records(&families::G_RECORDS);
    let printed = second::printed(families::G_TEXT, &proof);
    let wanted = "accepted 5\nmap 2 root 4\n4 if 1 then 2 else 1\n2 one\n1 zero\n";
    run.expect(printed == wanted, "what is printed for G");
    run.expect(
        second::printed(b"", b"") == "refused 3 0 0\n",
        "what is printed for empty files",
    );
    run.check(chance, "games", families::G_TEXT, &proof, &EXACT);
    let nodes = run.theirs.lent_nodes().to_vec();
    run.expect(nodes[16 * 3] == 1_073_741_825, "the word of line 4 of G");
    let values: Vec<u32> = [(4, 0), (4, 1), (3, 0), (3, u64::MAX)]
        .iter()
        .map(|&(root, settings)| run.play("checked tables", 1, root, &nodes, settings).value)
        .collect();
    run.expect(values == [3, 2, 1, 1], "the plays of G");
    let refused = run.play("checked tables", 1, 5, &nodes, 0);
    run.expect(
        refused
            == Played {
                number: 42,
                value: 0,
            },
        "line 5 of G makes no node",
    );
}

/// Every byte of the proofs of some small games replaced by many values.
fn damaged_games(run: &mut Run, chance: &mut Chance, every_value: bool) {
    let mut games: Vec<Game> = vec![families::games_around_g()[0].clone()];
    games.extend([
        families::example15(),
        families::example16(),
        families::equality(2),
    ]);
    games.extend(families::shared_leaf_against_two());
    games.extend(families::small_pairs());
    games.push(families::squared_equality(1));
    for (g, game) in games.iter().enumerate() {
        let values: Vec<u8> = if every_value && g < 4 {
            (0..=255).collect()
        } else {
            vec![
                0, 1, 2, 3, 4, 5, 6, 7, 8, 9, 11, 13, 16, 32, 64, 65, 127, 128, 129, 255,
            ]
        };
        for place in 0..game.proof.len() {
            for &value in &values {
                let mut proof = game.proof.clone();
                if proof[place] != value {
                    proof[place] = value;
                    run.check(chance, "damaged games", &game.text, &proof, &EXACT);
                }
            }
        }
    }
}

// ------------------------------------------------------------ random cases

/// The generator of one case: it depends on the seed, the kind and the case only.
fn chance_of(seed: u64, kind: u64, case: u64) -> Chance {
    let mut chance = Chance::new(seed.wrapping_mul(1_000_003) ^ kind << 56 ^ case << 8);
    chance.word();
    Chance::new(chance.word())
}

/// Random texts with random damage.
fn random_texts(run: &mut Run, seed: u64, cases: u64) {
    for case in 0..cases {
        let mut chance = chance_of(seed, 1, case);
        let text = generator::random_text(&mut chance);
        let lengths = random_lengths(&mut chance);
        run.read(&mut chance, "random texts", &text, &lengths);
        if chance.percent(50) {
            let proof = generator::careless_proof(&mut chance);
            let lengths = random_lengths(&mut chance);
            run.check(&mut chance, "random texts", &text, &proof, &lengths);
        }
    }
}

/// Random derivations, whole and damaged; plays on what they leave; semantic tests.
fn random_proofs(run: &mut Run, seed: u64, cases: u64) {
    for case in 0..cases {
        let mut chance = chance_of(seed, 2, case);
        let derivation = generator::random_derivation(&mut chance);
        let proof = derivation.proof();
        let lengths = random_lengths(&mut chance);
        let reply = run.check(
            &mut chance,
            "random proofs",
            &derivation.text,
            &proof,
            &lengths,
        );
        run.expect(
            reply.number == 0 || reply.number == 2,
            "a random proof is accepted",
        );
        if reply.number == 0 {
            count_steps(&mut run.steps, &derivation);
            play_checked(run, &mut chance, &reply, 6);
            win(run, &mut chance, &derivation.text, &proof);
        }
        if chance.percent(10) {
            let twice = generator::doubled(&derivation);
            run.check(
                &mut chance,
                "random proofs",
                &derivation.text,
                &twice,
                &EXACT,
            );
        }
        for _ in 0..derivation.refused.len().min(3) {
            let which = chance.below(derivation.refused.len());
            let proof = derivation.refused_proof(which);
            let reply = run.check(
                &mut chance,
                "refused last lines",
                &derivation.text,
                &proof,
                &EXACT,
            );
            let line = derivation.refused[which].0 as u32 + 1;
            run.expect(
                reply.number >= 26 && reply.place == line,
                "a last line is refused",
            );
        }
        for _ in 0..if derivation.records.len() > 200 {
            12
        } else {
            4
        } {
            let damaged = generator::damaged_proof(&mut chance, &derivation);
            let lengths = random_lengths(&mut chance);
            let reply = run.check(
                &mut chance,
                "damaged proofs",
                &derivation.text,
                &damaged,
                &lengths,
            );
            if reply.number == 0 {
                play_checked(run, &mut chance, &reply, 2);
                win(run, &mut chance, &derivation.text, &damaged);
            }
        }
    }
}

/// Pairs of random maps that are equal but for at most a small change.
fn pairs_of_maps(run: &mut Run, seed: u64, cases: u64) {
    for case in 0..cases {
        let mut chance = chance_of(seed, 5, case);
        let derivation = generator::pair_of_maps(&mut chance);
        let refused = !derivation.refused.is_empty();
        let proof = if refused {
            derivation.refused_proof(0)
        } else {
            derivation.proof()
        };
        let reply = run.check(
            &mut chance,
            "pairs of maps",
            &derivation.text,
            &proof,
            &EXACT,
        );
        run.expect(
            reply.number == if refused { 31 } else { 0 },
            "a pair of maps",
        );
        if reply.number == 0 {
            count_steps(&mut run.steps, &derivation);
            play_checked(run, &mut chance, &reply, 2);
            win(run, &mut chance, &derivation.text, &proof);
        }
        isomorphic_by_definition(run, &mut chance, &derivation);
    }
}

/// The second checker's isomorphism against its definition, on some small maps: all
/// one-to-one pairings of the nodes are tried.
fn isomorphic_by_definition(run: &mut Run, chance: &mut Chance, derivation: &Derivation) {
    let count = derivation.lines.len();
    let last = derivation.records.len() - 1;
    for _ in 0..6 {
        let (p, q) = (
            chance.between(1, count),
            chance.between(count / 2, last).max(1),
        );
        let column = chance.below(derivation.formula.universals.len());
        let (p, q) = (
            derivation.lines[p - 1].root[column],
            derivation.lines[q - 1].root[column],
        );
        let (first, second) = (
            nodes_of(derivation, column, p),
            nodes_of(derivation, column, q),
        );
        if first.len() > 6 || second.len() > 6 {
            continue;
        }
        let found = first.len() == second.len()
            && pairing_exists(derivation, column, &first, &second, &mut Vec::new());
        run.pairings[usize::from(found)] += 1;
        let says = second::isomorphic(&derivation.lines, column, p, q);
        run.expect(found == says, "isomorphism and its definition");
    }
}

/// Whether the partners chosen so far can be completed to a pairing under which
/// leaves agree and each branch has the same variable and paired ends.
fn pairing_exists(
    derivation: &Derivation,
    column: usize,
    first: &[u32],
    second: &[u32],
    partners: &mut Vec<u32>,
) -> bool {
    if partners.len() == first.len() {
        let partner = |node: u32| partners[first.iter().position(|&n| n == node).unwrap()];
        return first.iter().all(|&node| {
            let there = second::node_at(&derivation.lines, column, partner(node));
            match second::node_at(&derivation.lines, column, node) {
                second::Node::Branch { x, a, b } => {
                    let (a, b) = (partner(a), partner(b));
                    there == second::Node::Branch { x, a, b }
                }
                leaf => there == leaf,
            }
        });
    }
    for &node in second {
        if !partners.contains(&node) {
            partners.push(node);
            if pairing_exists(derivation, column, first, second, partners) {
                return true;
            }
            partners.pop();
        }
    }
    false
}

/// Random damage to the large games.
fn damaged_large_games(run: &mut Run, seed: u64, cases: u64) {
    let mut games = families::large_games();
    games.extend([families::equality(16), families::squared_equality(6)]);
    let derivations: Vec<Derivation> = games.iter().map(Derivation::of_game).collect();
    for case in 0..cases {
        let mut chance = chance_of(seed, 3, case);
        let derivation = &derivations[chance.below(derivations.len())];
        let damaged = generator::damaged_proof(&mut chance, derivation);
        let lengths = random_lengths(&mut chance);
        run.check(
            &mut chance,
            "damaged large games",
            &derivation.text,
            &damaged,
            &lengths,
        );
    }
}

/// How the universals of the accepted random proofs went through their resolutions.
#[derive(Default)]
struct Steps {
    merges: u64,
    star_leaves: u64,
    equal_roots: u64,
    isomorphic_leaves: u64,
    isomorphic_branches: u64,
    stars_under_branch: u64,
    deepest_map: u32,
    largest_isomorphic: usize,
}

/// Count the steps of a derivation.
fn count_steps(steps: &mut Steps, derivation: &Derivation) {
    for (i, record) in derivation.records.iter().enumerate() {
        if record[0] != 2 {
            continue;
        }
        let (a, b) = generator::parents(record);
        for column in 0..derivation.formula.universals.len() {
            let node = |number: u32| second::node_at(&derivation.lines, column, number);
            let (p, q) = (
                derivation.lines[a - 1].root[column],
                derivation.lines[b - 1].root[column],
            );
            if derivation.lines[i].root[column] as usize == i + 1 {
                steps.merges += 1;
                steps.stars_under_branch +=
                    u64::from(node(p) == second::Node::Star && node(q) == node(p));
            } else if node(p) == second::Node::Star || node(q) == second::Node::Star {
                steps.star_leaves += 1;
            } else if p == q {
                steps.equal_roots += 1;
            } else if let second::Node::Branch { .. } = node(p) {
                steps.isomorphic_branches += 1;
                let nodes = nodes_of(derivation, column, p).len();
                steps.largest_isomorphic = steps.largest_isomorphic.max(nodes);
            } else {
                steps.isomorphic_leaves += 1;
            }
        }
    }
    steps.deepest_map = steps.deepest_map.max(derivation.deepest());
}

/// The nodes of a map.
fn nodes_of(derivation: &Derivation, column: usize, root: u32) -> Vec<u32> {
    let mut reached = vec![false; root as usize + 1];
    reached[root as usize] = true;
    for number in (1..=root).rev() {
        if !reached[number as usize] {
            continue;
        }
        let node = second::node_at(&derivation.lines, column, number);
        if let second::Node::Branch { a, b, .. } = node {
            reached[a as usize] = true;
            reached[b as usize] = true;
        }
    }
    (1..=root)
        .filter(|&number| reached[number as usize])
        .collect()
}

// ----------------------------------------------------------------- playing

/// Plays on the tables that the library's checking left behind.
fn play_checked(run: &mut Run, chance: &mut Chance, reply: &Reply, times: usize) {
    let nodes = run.theirs.lent_nodes().to_vec();
    let roots = run.theirs.lent_roots().to_vec();
    for _ in 0..times {
        let line = chance.between(1, reply.lines as usize);
        let column = chance.between(1, (reply.universals as usize).max(1));
        let root = roots[16 * (line - 1) + column - 1];
        let settings = chance.word();
        run.play("checked tables", column as u32, root, &nodes, settings);
        let column = chance.between(0, 17) as u32;
        let root = chance.between(0, reply.lines as usize + 2) as u32;
        run.play("checked tables", column, root, &nodes, settings);
    }
    let short = second::MAP_WORDS - 1;
    run.play("checked tables", 1, 1, &nodes[..short], 0);
}

/// Plays on words around every border of the node words, and arguments around theirs.
fn written_plays(run: &mut Run) {
    let branch = |x: u32, a: u32, b: u32| (1 << 30) + ((x - 1) << 20) + ((a - 1) << 10) + (b - 1);
    for here in [1u32, 2, 3, 512, 1_023, 1_024] {
        let mut words = vec![
            0,
            1,
            2,
            3,
            4,
            5,
            1_023,
            1_024,
            (1 << 30) - 1,
            1 << 31,
            (1 << 31) - 1,
            u32::MAX,
        ];
        for x in [1, 2, 32, 63, 64, 65, 66, 128, 129, 1_024] {
            for end in [1, 2, here.max(2) - 1, here, here % 1_024 + 1, 1_024] {
                for other in [1, here.max(2) - 1, here] {
                    words.push(branch(x, end, other));
                    words.push(branch(x, other, end));
                    words.push(branch(x, end, other) | 1 << 31);
                    words.push(branch(x, end, other) & !(1 << 30));
                }
            }
        }
        for column in [1u32, 2, 15, 16] {
            let mut nodes = vec![0u32; second::MAP_WORDS];
            for lower in 1..here as usize {
                nodes[16 * (lower - 1) + column as usize - 1] = 1 + lower as u32 % 3;
            }
            for &word in &words {
                nodes[16 * (here as usize - 1) + column as usize - 1] = word;
                for settings in [0, u64::MAX, 1 << 63, !(1 << 63), 1, !1] {
                    run.play("written tables", column, here, &nodes, settings);
                }
            }
        }
    }
    let stars = vec![1u32; second::MAP_WORDS + 16];
    for column in [0, 1, 16, 17, 256, 257, 65_537, u32::MAX] {
        for root in [0, 1, 1_024, 1_025, 1_026, 2_048, 65_537, u32::MAX] {
            for length in [
                0,
                1,
                second::MAP_WORDS - 16,
                second::MAP_WORDS - 1,
                second::MAP_WORDS,
                second::MAP_WORDS + 16,
            ] {
                run.play("written tables", column, root, &stars[..length], 0);
            }
        }
    }
}

/// Plays on random and hostile tables, with fitting and unfitting arguments.
fn random_plays(run: &mut Run, seed: u64, cases: u64) {
    for case in 0..cases {
        let mut chance = chance_of(seed, 4, case);
        let length = match chance.below(10) {
            0 => chance.one_of(&[0, 1, 15, 16, 16_368, 16_382, 16_383]),
            1 => second::MAP_WORDS + chance.between(1, 40),
            _ => second::MAP_WORDS,
        };
        let nodes = generator::random_nodes(&mut chance, length);
        for _ in 0..8 {
            let strange = [0, 17, 18, 32, 1_025, 65_536, 1 << 30, u32::MAX];
            let column = if chance.percent(5) {
                chance.one_of(&strange)
            } else {
                chance.between(1, 16) as u32
            };
            let root = match chance.below(20) {
                0 => chance.one_of(&[0, 1_025, 1_026, 65_537, 1 << 31, u32::MAX]),
                1 => chance.one_of(&[1, 2, 1_023, 1_024]),
                _ => chance.between(1, 1_024) as u32,
            };
            let settings = chance.one_of(&[0, u64::MAX, 1, 1 << 63])
                ^ if chance.percent(80) { chance.word() } else { 0 };
            run.play("random tables", column, root, &nodes, settings);
        }
    }
}

// --------------------------------------------------------------- semantics

/// Play out an accepted game of few variables against every setting of the
/// existentials, with the tables and the playing of the library.
fn win(run: &mut Run, chance: &mut Chance, text: &[u8], proof: &[u8]) {
    let Ok(formula) = second::read_formula(text) else {
        return;
    };
    let existentials = second::existentials(&formula);
    if formula.prefix.len() > 11 {
        return;
    }
    run.semantic += 1;
    let nodes = run.theirs.lent_nodes();
    let roots = run.theirs.lent_roots();
    let last = proof.len() / 8 - 1;
    let mut fault = None;
    let mut settings = 0u64;
    loop {
        let mut all = settings;
        for (column, &universal) in formula.universals.iter().enumerate() {
            let root = roots[16 * last + column];
            let played = tested::play(column as u32 + 1, root, nodes, settings);
            let left = second::left_existentials(&formula, universal);
            let disturbed = (settings & left) | (chance.word() & !left);
            if played.number != 0 || !(1..=3).contains(&played.value) {
                fault = Some("a map of the last line is not played");
            }
            if tested::play(column as u32 + 1, root, nodes, disturbed) != played {
                fault = Some("a value depends on more than the existentials left of the universal");
            }
            if played.value == 2 {
                all |= second::bit(universal);
            }
        }
        if second::false_clause(&formula, all).is_none() {
            fault = Some("the maps make no clause false");
        }
        settings = settings.wrapping_sub(existentials) & existentials;
        if settings == 0 {
            break;
        }
    }
    if second::is_true(&formula) {
        fault = Some("the formula is true by its prefix");
    }
    if let Some(what) = fault {
        run.lost(what, text, proof);
    }
}

// ------------------------------------------------------------------ report

/// Counts for each service and kind, the numbers never answered, the differences.
fn report(run: &Run) {
    let mut totals = [0u64; 43];
    for service in ["read", "check", "play"] {
        let mut of_service = [0u64; 43];
        for count in run.counts.iter().filter(|count| count.service == service) {
            println!("{} / {}: {}", service, count.kind, numbers_of(&count.times));
            for (number, times) in count.times.iter().enumerate() {
                of_service[number] += times;
                totals[number] += times;
            }
        }
        println!("{} in all: {}", service, numbers_of(&of_service));
    }
    println!("all services: {}", numbers_of(&totals));
    let never: Vec<&u32> = NUMBERS
        .iter()
        .filter(|&&number| totals[number as usize] == 0)
        .collect();
    let least = NUMBERS
        .iter()
        .min_by_key(|&&number| totals[number as usize])
        .unwrap();
    println!(
        "numbers never answered: {:?}; rarest: {} ({} times)",
        never, least, totals[*least as usize]
    );
    println!("longest accepted proof: {} lines", run.most_lines);
    let steps = &run.steps;
    println!(
        "steps of random proofs: {} merges ({} over two star leaves); selects: {} with a star leaf, \
         {} of one root, {} of two leaves, {} of two branches",
        steps.merges,
        steps.stars_under_branch,
        steps.star_leaves,
        steps.equal_roots,
        steps.isomorphic_leaves,
        steps.isomorphic_branches
    );
    println!(
        "deepest random map: {} branches; largest random isomorphic pair: {} nodes each",
        steps.deepest_map, steps.largest_isomorphic
    );
    println!(
        "isomorphism by its definition: {} pairs of maps isomorphic, {} not",
        run.pairings[1], run.pairings[0]
    );
    println!("semantic tests: {}", run.semantic);
    println!("cases: {}", run.cases);
    println!("differences: {}", run.differences);
}

/// Numbers with the times they were answered.
fn numbers_of(times: &[u64; 43]) -> String {
    let answered = times.iter().enumerate().filter(|(_, times)| **times > 0);
    answered
        .map(|(number, times)| format!("{}:{}", number, times))
        .collect::<Vec<String>>()
        .join(" ")
}

/// Run the written cases and the random ones, then report.
fn main() {
    let arguments: Vec<String> = std::env::args().skip(1).collect();
    let argument =
        |k: usize, default: u64| arguments.get(k).map_or(Some(default), |a| a.parse().ok());
    let (Some(seed), Some(cases)) = (argument(0, 1), argument(1, 2_000)) else {
        eprintln!("usage: compare [SEED [CASES [trace]]]");
        std::process::exit(2);
    };
    let trace = arguments.get(2).is_some_and(|word| word == "trace");
    let mut run = Run::new(seed, trace);
    let mut chance = chance_of(seed, 0, 0);
    written_texts(&mut run, &mut chance);
    cut_texts(&mut run, &mut chance);
    table_lengths(&mut run, &mut chance);
    written_games(&mut run, &mut chance);
    damaged_games(&mut run, &mut chance, cases >= 10_000);
    written_plays(&mut run);
    random_texts(&mut run, seed, cases);
    random_proofs(&mut run, seed, cases);
    pairs_of_maps(&mut run, seed, cases);
    damaged_large_games(&mut run, seed, cases / 20);
    random_plays(&mut run, seed, cases);
    report(&run);
    if run.differences > 0 {
        std::process::exit(1);
    }
}
