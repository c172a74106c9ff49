//! Games: a formula text with a proof, and what the scope page says of them.

#![allow(dead_code)]

/// A formula text with a proof file; `expected` is number, place and variable
/// where the words of the scope page or of document 004 decide them.
#[derive(Clone)]
pub struct Game {
    pub name: String,
    pub text: Vec<u8>,
    pub proof: Vec<u8>,
    pub expected: Option<(u32, u32, u32)>,
}

/// What an accepted game answers.
pub const ACCEPTED: Option<(u32, u32, u32)> = Some((0, 0, 0));

// ----------------------------------------------------------------- writing

/// A formula text under construction.
#[derive(Clone, Default)]
pub struct TextWriter {
    pub variables: u32,
    pub blocks: Vec<(char, Vec<u32>)>,
    pub clauses: Vec<Vec<i32>>,
}

impl TextWriter {
    /// A text with V variables, without blocks and clauses.
    pub fn new(variables: u32) -> TextWriter {
        TextWriter {
            variables,
            ..TextWriter::default()
        }
    }

    /// Add a block: a (universal) or e (existential) and its variables.
    pub fn block(&mut self, kind: char, variables: &[u32]) {
        self.blocks.push((kind, variables.to_vec()));
    }

    /// Add a clause; its number comes back.
    pub fn clause(&mut self, literals: &[i32]) -> u32 {
        self.clauses.push(literals.to_vec());
        self.clauses.len() as u32
    }

    /// The number of a clause with these literals, added where it is not there yet.
    pub fn clause_once(&mut self, literals: &[i32]) -> u32 {
        match self.clauses.iter().position(|clause| clause == literals) {
            Some(c) => c as u32 + 1,
            None => self.clause(literals),
        }
    }

    /// The text: header, blocks, clauses, one to a row.
    pub fn bytes(&self) -> Vec<u8> {
        let mut text = format!("p cnf {} {}\n", self.variables, self.clauses.len());
        for (kind, variables) in &self.blocks {
            if variables.is_empty() {
                continue;
            }
            text.push(*kind);
            for variable in variables {
                text.push_str(&format!(" {}", variable));
            }
            text.push_str(" 0\n");
        }
        for clause in &self.clauses {
            for literal in clause {
                text.push_str(&format!("{} ", literal));
            }
            text.push_str("0\n");
        }
        text.into_bytes()
    }
}

/// A proof file under construction.
#[derive(Clone, Default)]
pub struct ProofWriter {
    pub records: Vec<[u8; 8]>,
}

impl ProofWriter {
    /// Add an axiom; its line comes back.
    pub fn axiom(&mut self, clause: u32) -> u32 {
        self.records.push(axiom_record(clause));
        self.records.len() as u32
    }

    /// Add a resolution of a and b on x with its merge set; its line comes back.
    pub fn resolve(&mut self, a: u32, b: u32, x: u32, merge_set: u32) -> u32 {
        self.records.push(resolution_record(a, b, x, merge_set));
        self.records.len() as u32
    }

    /// The number of lines so far.
    pub fn lines(&self) -> u32 {
        self.records.len() as u32
    }

    /// The proof file.
    pub fn bytes(&self) -> Vec<u8> {
        proof_of_records(&self.records)
    }
}

/// The record of an axiom.
pub fn axiom_record(clause: u32) -> [u8; 8] {
    [1, clause as u8, (clause >> 8) as u8, 0, 0, 0, 0, 0]
}

/// The record of a resolution.
pub fn resolution_record(a: u32, b: u32, x: u32, merge_set: u32) -> [u8; 8] {
    [
        2,
        a as u8,
        (a >> 8) as u8,
        b as u8,
        (b >> 8) as u8,
        x as u8,
        merge_set as u8,
        (merge_set >> 8) as u8,
    ]
}

/// Mark, version, line count, records.
pub fn proof_of_records(records: &[[u8; 8]]) -> Vec<u8> {
    let count = records.len();
    let mut bytes = vec![b'M', b'R', b'P', 1, 0, count as u8, (count >> 8) as u8];
    for record in records {
        bytes.extend_from_slice(record);
    }
    bytes
}

/// The records of a proof file.
pub fn records_of_proof(proof: &[u8]) -> Vec<[u8; 8]> {
    proof[7..]
        .chunks_exact(8)
        .map(|record| record.try_into().unwrap())
        .collect()
}

/// A game from its writers.
pub fn game(
    name: &str,
    text: &TextWriter,
    proof: &ProofWriter,
    expected: Option<(u32, u32, u32)>,
) -> Game {
    Game {
        name: name.to_string(),
        text: text.bytes(),
        proof: proof.bytes(),
        expected,
    }
}

/// The merge set of the first universals, so many of them.
fn all_of(universals: u32) -> u32 {
    (1 << universals) - 1
}

// ------------------------------------------------------------------ G

/// The text of the game G.
pub const G_TEXT: &[u8] = b"p cnf 3 3 e 1 0 a 2 0 e 3 0 1 2 3 0 -1 -2 3 0 -3 0";

/// The records of the game G.
pub const G_RECORDS: [[u8; 8]; 5] = [
    [1, 1, 0, 0, 0, 0, 0, 0],
    [1, 2, 0, 0, 0, 0, 0, 0],
    [1, 3, 0, 0, 0, 0, 0, 0],
    [2, 1, 0, 2, 0, 1, 1, 0],
    [2, 4, 0, 3, 0, 3, 0, 0],
];

/// The game G with other records.
fn g_with(name: &str, records: &[[u8; 8]], expected: (u32, u32, u32)) -> Game {
    Game {
        name: name.to_string(),
        text: G_TEXT.to_vec(),
        proof: proof_of_records(records),
        expected: Some(expected),
    }
}

/// The game G with one byte of one record (line from 1) replaced.
fn g_byte(name: &str, line: usize, byte: usize, value: u8, expected: (u32, u32, u32)) -> Game {
    let mut records = G_RECORDS;
    records[line - 1][byte] = value;
    g_with(name, &records, expected)
}

/// G and the cases around it that the scope page lists, and each field once.
pub fn games_around_g() -> Vec<Game> {
    let mut exchanged = G_RECORDS;
    exchanged[3] = [2, 2, 0, 1, 0, 1, 1, 0];
    let mut no_lines = g_with("g_no_lines", &[], (13, 0, 0));
    no_lines.proof = b"MRP\x01\x00\x00\x00".to_vec();
    vec![
        g_with("g", &G_RECORDS, (0, 0, 0)),
        g_byte("g_line4_set0", 4, 6, 0, (31, 4, 2)),
        g_byte("g_line4_set2", 4, 6, 2, (28, 4, 0)),
        g_byte("g_line4_set3", 4, 6, 3, (28, 4, 0)),
        g_byte("g_line4_set_high", 4, 7, 128, (28, 4, 0)),
        g_byte("g_line5_set1", 5, 6, 1, (30, 5, 2)),
        g_with("g_line4_exchanged", &exchanged, (26, 4, 0)),
        g_with("g_four_lines", &G_RECORDS[..4], (32, 4, 0)),
        g_with("g_one_line", &G_RECORDS[..1], (32, 1, 0)),
        no_lines,
        g_byte("g_kind0", 1, 0, 0, (21, 1, 0)),
        g_byte("g_kind3", 5, 0, 3, (21, 5, 0)),
        g_byte("g_kind_resolution_first", 1, 0, 2, (24, 1, 0)),
        g_byte("g_axiom_byte3", 2, 3, 1, (22, 2, 0)),
        g_byte("g_axiom_byte7", 3, 7, 255, (22, 3, 0)),
        g_byte("g_clause0", 1, 1, 0, (23, 1, 0)),
        g_byte("g_clause4", 1, 1, 4, (23, 1, 0)),
        g_byte("g_clause_high", 1, 2, 1, (23, 1, 0)),
        g_byte("g_parent_a_own", 4, 1, 4, (24, 4, 0)),
        g_byte("g_parent_b_own", 4, 3, 4, (24, 4, 0)),
        g_byte("g_parent_a0", 4, 1, 0, (24, 4, 0)),
        g_byte("g_parent_b0", 4, 3, 0, (24, 4, 0)),
        g_byte("g_parent_b_high", 4, 4, 1, (24, 4, 0)),
        g_byte("g_pivot0", 4, 5, 0, (25, 4, 0)),
        g_byte("g_pivot_universal", 4, 5, 2, (25, 4, 0)),
        g_byte("g_pivot_past", 4, 5, 4, (25, 4, 0)),
        g_byte("g_pivot64", 4, 5, 64, (25, 4, 0)),
        g_byte("g_pivot65", 4, 5, 65, (25, 4, 0)),
        g_byte("g_pivot255", 4, 5, 255, (25, 4, 0)),
        g_byte("g_b_lacks", 5, 3, 2, (27, 5, 0)),
        g_byte("g_a_lacks", 5, 1, 3, (26, 5, 0)),
    ]
}

/// Heads of proof files around G: mark, version, length, line count.
pub fn games_of_heads() -> Vec<Game> {
    let whole = proof_of_records(&G_RECORDS);
    let mut games = Vec::new();
    let mut add = |name: String, proof: Vec<u8>, expected: u32| {
        let expected = Some((expected, 0, 0));
        games.push(Game {
            name,
            text: G_TEXT.to_vec(),
            proof,
            expected,
        });
    };
    for length in 0..whole.len() {
        let number = if length < 7 { 11 } else { 12 };
        add(format!("g_cut{}", length), whole[..length].to_vec(), number);
    }
    add("g_longer".to_string(), [&whole[..], &[0]].concat(), 12);
    add(
        "g_record_more".to_string(),
        [&whole[..], &[1, 1, 0, 0, 0, 0, 0, 0]].concat(),
        12,
    );
    for byte in 0..7 {
        for value in [0, 1, 2, 4, 6, 77, 80, 82, 128, 255] {
            if whole[byte] != value {
                let mut proof = whole.clone();
                proof[byte] = value;
                let number = if byte < 5 { 11 } else { 12 };
                add(format!("g_head{}_{}", byte, value), proof, number);
            }
        }
    }
    for count in [0, 1_025, 2_048, 8_192, 65_535] {
        let records = vec![G_RECORDS[0]; count];
        games.push(g_with(&format!("g_lines{}", count), &records, (13, 0, 0)));
    }
    games.push(g_with(
        "g_lines1024",
        &vec![G_RECORDS[0]; 1_024],
        (32, 1_024, 0),
    ));
    games
}

// ------------------------------------------------- examples of document 004

/// Example 15: prefix v x w, u, y z, numbered 1 to 6 in that order.
pub fn example15() -> Game {
    let (v, x, w, u, y, z) = (1, 2, 3, 4, 5, 6);
    let mut text = TextWriter::new(6);
    text.block('e', &[1, 2, 3]);
    text.block('a', &[4]);
    text.block('e', &[5, 6]);
    for clause in [
        vec![w, x, u],
        vec![-w, x, -u],
        vec![-x, u, y],
        vec![v, -y],
        vec![-x, z],
        vec![-v, -z],
    ] {
        text.clause(&clause);
    }
    let mut proof = ProofWriter::default();
    proof.axiom(1);
    proof.axiom(2);
    proof.resolve(1, 2, w as u32, 1);
    proof.axiom(3);
    proof.resolve(3, 4, x as u32, 1);
    proof.axiom(4);
    proof.resolve(5, 6, y as u32, 0);
    proof.axiom(5);
    proof.resolve(3, 8, x as u32, 0);
    proof.axiom(6);
    proof.resolve(9, 10, z as u32, 0);
    proof.resolve(7, 11, v as u32, 1);
    game("example15", &text, &proof, ACCEPTED)
}

/// Example 15 with a merge at line 7, whose pivot y is right of u.
pub fn example15_merged() -> Game {
    let mut changed = example15();
    changed.name = "example15_merged".to_string();
    changed.proof[7 + 8 * 6 + 6] = 1;
    changed.expected = Some((30, 7, 4));
    changed
}

/// Example 16: prefix x, u, t, numbered 1 to 3.
pub fn example16() -> Game {
    let (x, u, t) = (1, 2, 3);
    let mut text = TextWriter::new(3);
    text.block('e', &[1]);
    text.block('a', &[2]);
    text.block('e', &[3]);
    for clause in [[x, u, t], [-x, -u, t], [x, u, -t], [-x, -u, -t]] {
        text.clause(&clause);
    }
    let mut proof = ProofWriter::default();
    proof.axiom(1);
    proof.axiom(2);
    proof.resolve(1, 2, x as u32, 1);
    proof.axiom(3);
    proof.axiom(4);
    proof.resolve(4, 5, x as u32, 1);
    proof.resolve(3, 6, t as u32, 0);
    game("example16", &text, &proof, ACCEPTED)
}

/// EQ(n), 1 to 16: x_i, then u_i, then t_i; the refutation of Example 3.
pub fn equality(n: u32) -> Game {
    let x = |i: u32| i;
    let u = |i: u32| n + i;
    let t = |i: u32| 2 * n + i;
    let mut text = TextWriter::new(3 * n);
    text.block('e', &(1..=n).map(x).collect::<Vec<u32>>());
    text.block('a', &(1..=n).map(u).collect::<Vec<u32>>());
    text.block('e', &(1..=n).map(t).collect::<Vec<u32>>());
    for i in 1..=n {
        let (x, u, t) = (x(i) as i32, u(i) as i32, t(i) as i32);
        text.clause(&[x, u, t]);
        text.clause(&[-x, -u, t]);
    }
    let long = text.clause(&(1..=n).map(|i| -(t(i) as i32)).collect::<Vec<i32>>());
    let mut proof = ProofWriter::default();
    let mut units = Vec::new();
    for i in 1..=n {
        let plain = proof.axiom(2 * i - 1);
        let negated = proof.axiom(2 * i);
        units.push(proof.resolve(plain, negated, x(i), 1 << (i - 1)));
    }
    let mut rest = proof.axiom(long);
    for i in 1..=n {
        rest = proof.resolve(units[i as usize - 1], rest, t(i), 0);
    }
    game(&format!("eq{}", n), &text, &proof, ACCEPTED)
}

/// Squared EQ(n), 1 to 6: the refutation of Theorem 27.
///
/// Variables: x_i is 2i-1, y_i is 2i; u_i is 2n+2i-1, v_i is 2n+2i; then t_ij.
pub fn squared_equality(n: u32) -> Game {
    let x = |i: u32| 2 * i - 1;
    let y = |j: u32| 2 * j;
    let u = |i: u32| 2 * n + 2 * i - 1;
    let v = |j: u32| 2 * n + 2 * j;
    let t = |i: u32, j: u32| 4 * n + (i - 1) * n + j;
    let variables = 4 * n + n * n;
    let mut text = TextWriter::new(variables);
    text.block('e', &(1..=2 * n).collect::<Vec<u32>>());
    text.block('a', &(2 * n + 1..=4 * n).collect::<Vec<u32>>());
    text.block('e', &(4 * n + 1..=variables).collect::<Vec<u32>>());
    let pairs: Vec<(u32, u32)> = (1..=n).flat_map(|i| (1..=n).map(move |j| (i, j))).collect();
    for &(i, j) in &pairs {
        let (x, y) = (x(i) as i32, y(j) as i32);
        let (u, v, t) = (u(i) as i32, v(j) as i32, t(i, j) as i32);
        text.clause(&[x, y, u, v, t]);
        text.clause(&[-x, y, -u, v, t]);
        text.clause(&[x, -y, u, -v, t]);
        text.clause(&[-x, -y, -u, -v, t]);
    }
    let square: Vec<i32> = pairs.iter().map(|&(i, j)| -(t(i, j) as i32)).collect();
    let square = text.clause(&square);

    // The lines L(h, i, j) for h = 0 to 6, each h in a run of n*n lines.
    let mut proof = ProofWriter::default();
    let line = |h: u32, i: u32, j: u32| h * n * n + (i - 1) * n + j;
    for h in 0..4 {
        for &(i, j) in &pairs {
            proof.axiom(4 * ((i - 1) * n + j - 1) + h + 1);
        }
    }
    for &(i, j) in &pairs {
        proof.resolve(line(0, i, j), line(2, i, j), y(j), 1 << (2 * j - 1));
    }
    for &(i, j) in &pairs {
        proof.resolve(line(1, i, j), line(3, i, j), y(j), 1 << (2 * j - 1));
    }
    for &(i, j) in &pairs {
        proof.resolve(line(4, i, j), line(5, i, j), x(i), 1 << (2 * i - 2));
    }
    let mut rest = proof.axiom(square);
    for &(i, j) in &pairs {
        rest = proof.resolve(line(6, i, j), rest, t(i, j), 0);
    }
    game(&format!("square{}", n), &text, &proof, ACCEPTED)
}

// ------------------------------------------------------------ large games

/// The variables of the large games: x 1, y 2, z 3, then the universals, then t.
fn large_text(universals: u32) -> TextWriter {
    let mut text = TextWriter::new(4 + universals);
    text.block('e', &[1, 2, 3]);
    text.block('a', &(4..4 + universals).collect::<Vec<u32>>());
    text.block('e', &[4 + universals]);
    text
}

/// The universals of a large game, all with one sign, behind the given literals.
fn with_universals(literals: &[i32], universals: u32, sign: i32) -> Vec<i32> {
    let mut clause = literals.to_vec();
    clause.extend((4..4 + universals as i32).map(|u| sign * u));
    clause
}

/// A deep map: x and y are resolved in turn, each time merging every universal.
pub fn deep_maps(lines: u32, universals: u32) -> Game {
    let mut text = large_text(universals);
    let start = text.clause(&with_universals(&[1], universals, 1));
    let x_to_y = text.clause(&with_universals(&[-1, 2], universals, -1));
    let y_to_x = text.clause(&[-2, 1]);
    let end_x = text.clause(&with_universals(&[-1], universals, 1));
    let end_y = text.clause(&[-2]);
    let mut proof = ProofWriter::default();
    let x_to_y = proof.axiom(x_to_y);
    let y_to_x = proof.axiom(y_to_x);
    let end_x = proof.axiom(end_x);
    let end_y = proof.axiom(end_y);
    let mut rest = proof.axiom(start);
    let mut holds_x = true;
    while proof.lines() + 1 < lines {
        rest = if holds_x {
            proof.resolve(rest, x_to_y, 1, all_of(universals))
        } else {
            proof.resolve(rest, y_to_x, 2, all_of(universals))
        };
        holds_x = !holds_x;
    }
    if holds_x {
        proof.resolve(rest, end_x, 1, all_of(universals));
    } else {
        proof.resolve(rest, end_y, 2, all_of(universals));
    }
    game(
        &format!("deep{}_{}", lines, universals),
        &text,
        &proof,
        ACCEPTED,
    )
}

/// A shared map: every three lines a branch (x, r, r) over the map before it,
/// so the unfolded tree doubles each time.
pub fn shared_maps(lines: u32, universals: u32) -> Game {
    let mut text = large_text(universals);
    let start = text.clause(&with_universals(&[2], universals, 1));
    let y_to_xz = text.clause(&[-2, 1, 3]);
    let y_to_not_x = text.clause(&[-2, -1]);
    let z_to_xy = text.clause(&[-3, 1, 2]);
    let z_to_not_x = text.clause(&[-3, -1]);
    let end_y = text.clause(&[-2]);
    let end_z = text.clause(&[-3]);
    let mut proof = ProofWriter::default();
    let plain = [proof.axiom(y_to_xz), proof.axiom(z_to_xy)];
    let negated = [proof.axiom(y_to_not_x), proof.axiom(z_to_not_x)];
    let end = [proof.axiom(end_y), proof.axiom(end_z)];
    let mut rest = proof.axiom(start);
    let mut turn = 0;
    while proof.lines() + 4 <= lines {
        let pivot = 2 + turn as u32;
        let with_x = proof.resolve(rest, plain[turn], pivot, 0);
        let with_not_x = proof.resolve(rest, negated[turn], pivot, 0);
        rest = proof.resolve(with_x, with_not_x, 1, all_of(universals));
        turn = 1 - turn;
    }
    proof.resolve(rest, end[turn], 2 + turn as u32, 0);
    game(
        &format!("shared{}_{}", lines, universals),
        &text,
        &proof,
        ACCEPTED,
    )
}

/// One copy of a map of so many lines under t (sign 1) or not t (sign -1).
fn copy_under_t(
    text: &mut TextWriter,
    proof: &mut ProofWriter,
    lines: u32,
    universals: u32,
    sign: i32,
) -> u32 {
    let t = 4 + universals as i32;
    let end_of_copy = proof.lines() + lines;
    let start = text.clause_once(&with_universals(&[1, sign * t], universals, 1));
    let x_to_y = text.clause_once(&with_universals(&[-1, 2], universals, -1));
    let y_to_x = text.clause_once(&[-2, 1]);
    let end_x = text.clause_once(&with_universals(&[-1], universals, 1));
    let end_y = text.clause_once(&[-2]);
    let x_to_y = proof.axiom(x_to_y);
    let y_to_x = proof.axiom(y_to_x);
    let end_x = proof.axiom(end_x);
    let end_y = proof.axiom(end_y);
    let mut rest = proof.axiom(start);
    let mut holds_x = true;
    while proof.lines() + 1 < end_of_copy {
        rest = if holds_x {
            proof.resolve(rest, x_to_y, 1, all_of(universals))
        } else {
            proof.resolve(rest, y_to_x, 2, all_of(universals))
        };
        holds_x = !holds_x;
    }
    if holds_x {
        proof.resolve(rest, end_x, 1, all_of(universals))
    } else {
        proof.resolve(rest, end_y, 2, all_of(universals))
    }
}

/// Two isomorphic maps that share no node, selected in every line that follows.
pub fn select_heavy(lines: u32, copy_lines: u32, universals: u32) -> Game {
    let mut text = large_text(universals);
    let mut proof = ProofWriter::default();
    let plain = copy_under_t(&mut text, &mut proof, copy_lines, universals, 1);
    let negated = copy_under_t(&mut text, &mut proof, copy_lines, universals, -1);
    while proof.lines() < lines {
        proof.resolve(plain, negated, 4 + universals, 0);
    }
    game(
        &format!("selects{}_{}_{}", lines, copy_lines, universals),
        &text,
        &proof,
        ACCEPTED,
    )
}

/// Two maps of unequal depth, which the first select must refuse.
pub fn select_refused(copy_lines: u32, universals: u32) -> Game {
    let mut text = large_text(universals);
    let mut proof = ProofWriter::default();
    let plain = copy_under_t(&mut text, &mut proof, copy_lines, universals, 1);
    let negated = copy_under_t(&mut text, &mut proof, copy_lines + 2, universals, -1);
    let line = proof.resolve(plain, negated, 4 + universals, 0);
    let name = format!("selects_refused{}_{}", copy_lines, universals);
    game(&name, &text, &proof, Some((31, line, 4)))
}

/// A game's refutation written again and again behind itself, up to a line count.
pub fn repeated(once: &Game, lines: usize) -> Game {
    let records = records_of_proof(&once.proof);
    let mut all = Vec::new();
    while all.len() % records.len() < lines % records.len() {
        all.push(records[0]);
    }
    while all.len() + records.len() <= lines {
        let before = all.len() as u32;
        for record in &records {
            all.push(moved(record, before));
        }
    }
    Game {
        name: format!("{}_times_{}", once.name, lines),
        text: once.text.clone(),
        proof: proof_of_records(&all),
        expected: once.expected,
    }
}

/// A record whose parents stand so many lines further on.
pub fn moved(record: &[u8; 8], by: u32) -> [u8; 8] {
    if record[0] == 1 {
        return *record;
    }
    let a = u32::from(record[1]) + 256 * u32::from(record[2]);
    let b = u32::from(record[3]) + 256 * u32::from(record[4]);
    let merge_set = u32::from(record[6]) + 256 * u32::from(record[7]);
    resolution_record(a + by, b + by, u32::from(record[5]), merge_set)
}

// ------------------------------------------------------------ small games

/// No universals: `p cnf 0 1 0` with one axiom of clause 1.
pub fn no_maps() -> Game {
    let mut proof = ProofWriter::default();
    proof.axiom(1);
    Game {
        name: "no_maps".to_string(),
        text: b"p cnf 0 1 0".to_vec(),
        proof: proof.bytes(),
        expected: ACCEPTED,
    }
}

/// The house rule: (1 2) and (-1 -2) resolved on 1.
pub fn both_ways() -> Game {
    let mut text = TextWriter::new(2);
    text.block('e', &[1, 2]);
    text.clause(&[1, 2]);
    text.clause(&[-1, -2]);
    let mut proof = ProofWriter::default();
    proof.axiom(1);
    proof.axiom(2);
    proof.resolve(1, 2, 1, 0);
    game("both_ways", &text, &proof, Some((29, 3, 0)))
}

/// An empty clause stood earlier, the last one is not empty.
pub fn empty_earlier() -> Game {
    let mut text = TextWriter::new(2);
    text.block('e', &[1]);
    text.block('a', &[2]);
    text.clause(&[1, 2]);
    text.clause(&[-1, 2]);
    let mut proof = ProofWriter::default();
    proof.axiom(1);
    proof.axiom(2);
    proof.resolve(1, 2, 1, 0);
    proof.axiom(1);
    game("empty_earlier", &text, &proof, Some((32, 4, 0)))
}

/// The formula of the pairs below: x is 1, u is 2, t is 3.
fn pair_text() -> TextWriter {
    let mut text = TextWriter::new(3);
    text.block('e', &[1]);
    text.block('a', &[2]);
    text.block('e', &[3]);
    for clause in [
        vec![1, 2, 3],
        vec![-1, 2, 3],
        vec![1, 2, -3],
        vec![-1, 2, -3],
        vec![1, 3],
        vec![-1, 3],
        vec![1, -3],
        vec![-1, -3],
        vec![-3],
        vec![-3, -2],
        vec![-3, 2],
        vec![-1, -2, 3],
        vec![-1, -2, -3],
        vec![1, -2, -3],
    ] {
        text.clause(&clause);
    }
    text
}

/// One pair of maps against each other: axioms, then two branches, then a select on t.
fn pair(name: &str, axioms: &[u32], first: [u32; 2], second: [u32; 2], accepted: bool) -> Game {
    let mut proof = ProofWriter::default();
    for &clause in axioms {
        proof.axiom(clause);
    }
    let plain = proof.resolve(first[0], first[1], 1, 1);
    let negated = proof.resolve(second[0], second[1], 1, 1);
    let line = proof.resolve(plain, negated, 3, 0);
    let expected = if accepted { (0, 0, 0) } else { (31, line, 2) };
    game(name, &pair_text(), &proof, Some(expected))
}

/// The (1,p,p) pair: both ends of a branch come to one leaf, against two leaves.
/// Here x is 1, u is 2, t is 3, and y, resolved away on the way, is 4.
pub fn shared_leaf_against_two() -> Vec<Game> {
    let mut text = TextWriter::new(4);
    text.block('e', &[1, 4]);
    text.block('a', &[2]);
    text.block('e', &[3]);
    for clause in [
        vec![3, 4, 2],
        vec![-4, 1],
        vec![-4, -1],
        vec![1, 2, -3],
        vec![-1, 2, -3],
        vec![1, 2, 3],
        vec![-1, 2, 3],
        vec![-3, 4, 2],
    ] {
        text.clause(&clause);
    }
    // Under t: line 6 is (x, p, p); under not t: line 9 is (x, q, r).
    let mut proof = ProofWriter::default();
    let p = proof.axiom(1);
    let with_x = proof.axiom(2);
    let with_not_x = proof.axiom(3);
    let one = proof.resolve(p, with_x, 4, 0);
    let other = proof.resolve(p, with_not_x, 4, 0);
    let shared = proof.resolve(one, other, 1, 1);
    let q = proof.axiom(4);
    let r = proof.axiom(5);
    let apart = proof.resolve(q, r, 1, 1);
    let last = proof.resolve(shared, apart, 3, 0);
    let first = game("leaf_shared_then_two", &text, &proof, Some((31, last, 2)));

    // The same the other way round: (x, q, r) under t, (x, p, p) under not t.
    let mut proof = ProofWriter::default();
    let q = proof.axiom(6);
    let r = proof.axiom(7);
    let apart = proof.resolve(q, r, 1, 1);
    let p = proof.axiom(8);
    let with_x = proof.axiom(2);
    let with_not_x = proof.axiom(3);
    let one = proof.resolve(p, with_x, 4, 0);
    let other = proof.resolve(p, with_not_x, 4, 0);
    let shared = proof.resolve(one, other, 1, 1);
    let last = proof.resolve(apart, shared, 3, 0);
    let second = game("leaf_two_then_shared", &text, &proof, Some((31, last, 2)));

    // Shared leaf against shared leaf is isomorphic.
    let mut proof = ProofWriter::default();
    let p = proof.axiom(1);
    let with_x = proof.axiom(2);
    let with_not_x = proof.axiom(3);
    let one = proof.resolve(p, with_x, 4, 0);
    let other = proof.resolve(p, with_not_x, 4, 0);
    let shared = proof.resolve(one, other, 1, 1);
    let q = proof.axiom(8);
    let one = proof.resolve(q, with_x, 4, 0);
    let other = proof.resolve(q, with_not_x, 4, 0);
    let second_shared = proof.resolve(one, other, 1, 1);
    proof.resolve(shared, second_shared, 3, 0);
    let third = game("leaf_shared_both", &text, &proof, ACCEPTED);
    vec![first, second, third]
}

/// Pairs of small maps: leaves, star leaves, branches over two star leaves.
pub fn small_pairs() -> Vec<Game> {
    let mut games = vec![
        pair("pair_equal", &[1, 2, 3, 4], [1, 2], [3, 4], true),
        pair("pair_star_equal", &[5, 6, 7, 8], [1, 2], [3, 4], true),
        pair(
            "pair_star_against_zero",
            &[5, 6, 3, 4],
            [1, 2],
            [3, 4],
            false,
        ),
        pair(
            "pair_zero_against_star",
            &[1, 2, 7, 8],
            [1, 2],
            [3, 4],
            false,
        ),
        pair(
            "pair_ends_exchanged",
            &[1, 12, 14, 4],
            [1, 2],
            [3, 4],
            false,
        ),
        pair("pair_leaf_differs", &[1, 2, 3, 13], [1, 2], [3, 4], false),
    ];
    games.push(other_variable());
    // A branch over two star leaves is not one star leaf.
    for (name, clause, accepted) in [
        ("stars_against_zero", 11, false),
        ("stars_against_one", 10, false),
        ("stars_against_star", 9, true),
    ] {
        let mut proof = ProofWriter::default();
        proof.axiom(5);
        proof.axiom(6);
        let branch = proof.resolve(1, 2, 1, 1);
        let leaf = proof.axiom(clause);
        let line = proof.resolve(branch, leaf, 3, 0);
        let expected = if accepted { (0, 0, 0) } else { (31, line, 2) };
        games.push(game(name, &pair_text(), &proof, Some(expected)));
    }
    games
}

/// Branches of two variables over equal leaves: x is 1, y is 4, u is 2, t is 3.
fn other_variable() -> Game {
    let mut text = TextWriter::new(4);
    text.block('e', &[1, 4]);
    text.block('a', &[2]);
    text.block('e', &[3]);
    for clause in [[1, 2, 3], [-1, -2, 3], [4, 2, -3], [-4, -2, -3]] {
        text.clause(&clause);
    }
    let mut proof = ProofWriter::default();
    for clause in 1..=4 {
        proof.axiom(clause);
    }
    let over_x = proof.resolve(1, 2, 1, 1);
    let over_y = proof.resolve(3, 4, 4, 1);
    let line = proof.resolve(over_x, over_y, 3, 0);
    game("pair_other_variable", &text, &proof, Some((31, line, 2)))
}

/// Which parent's root is kept: a's unless a's map is one star leaf.
pub fn kept_roots() -> Vec<Game> {
    let mut text = TextWriter::new(2);
    text.block('a', &[2]);
    text.block('e', &[1]);
    for clause in [
        vec![1],
        vec![1, 2],
        vec![1, -2],
        vec![-1],
        vec![-1, 2],
        vec![-1, -2],
    ] {
        text.clause(&clause);
    }
    let mut games = Vec::new();
    for first in 1..=3 {
        for second in 4..=6 {
            let mut proof = ProofWriter::default();
            proof.axiom(first);
            proof.axiom(second);
            proof.resolve(1, 2, 1, 0);
            let differ = (first == 2 && second == 6) || (first == 3 && second == 5);
            let expected = if differ { (31, 3, 2) } else { (0, 0, 0) };
            games.push(game(
                &format!("kept{}_{}", first, second),
                &text,
                &proof,
                Some(expected),
            ));
        }
    }
    games
}

/// Refusals 30 and 31 in one line: they go by universal number.
pub fn thirty_and_thirty_one() -> Vec<Game> {
    let mut games = Vec::new();
    // Universals 2 and 3 are left of the pivot 1, and both differ.
    for (merge_set, expected) in [
        (0, (31, 3, 2)),
        (1, (30, 3, 2)),
        (2, (31, 3, 2)),
        (3, (30, 3, 2)),
        (4, (28, 3, 0)),
    ] {
        let blocks = [('a', vec![2, 3]), ('e', vec![1])];
        let clauses = [vec![1, 2, 3], vec![-1, -2, -3]];
        games.push(one_step(
            &format!("both_differ{}", merge_set),
            &blocks,
            &clauses,
            merge_set,
            expected,
        ));
    }
    // The same, and only universal 3 differs.
    for (merge_set, expected) in [
        (0, (31, 3, 3)),
        (1, (30, 3, 2)),
        (2, (30, 3, 3)),
        (3, (30, 3, 2)),
    ] {
        let blocks = [('a', vec![2, 3]), ('e', vec![1])];
        let clauses = [vec![1, 2, 3], vec![-1, 2, -3]];
        games.push(one_step(
            &format!("second_differs{}", merge_set),
            &blocks,
            &clauses,
            merge_set,
            expected,
        ));
    }
    // Universal 2 is left of the pivot, universal 3 right of it and differs.
    for (merge_set, expected) in [
        (0, (31, 3, 3)),
        (1, (30, 3, 2)),
        (2, (0, 0, 0)),
        (3, (30, 3, 2)),
    ] {
        let blocks = [('a', vec![2]), ('e', vec![1]), ('a', vec![3])];
        let clauses = [vec![1, 2, 3], vec![-1, 2, -3]];
        games.push(one_step(
            &format!("both_sides{}", merge_set),
            &blocks,
            &clauses,
            merge_set,
            expected,
        ));
    }
    games
}

/// Two axioms and their resolution on variable 1, over variables 1 to 3.
fn one_step(
    name: &str,
    blocks: &[(char, Vec<u32>)],
    clauses: &[Vec<i32>; 2],
    merge_set: u32,
    expected: (u32, u32, u32),
) -> Game {
    let mut text = TextWriter::new(3);
    for (kind, variables) in blocks {
        text.block(*kind, variables);
    }
    for clause in clauses {
        text.clause(clause);
    }
    let mut proof = ProofWriter::default();
    proof.axiom(1);
    proof.axiom(2);
    proof.resolve(1, 2, 1, merge_set);
    game(name, &text, &proof, Some(expected))
}

/// All games, small and large.
pub fn all_games() -> Vec<Game> {
    let mut games = games_around_g();
    games.push(example15());
    games.push(example15_merged());
    games.push(example16());
    games.push(no_maps());
    games.push(both_ways());
    games.push(empty_earlier());
    games.extend(shared_leaf_against_two());
    games.extend(small_pairs());
    games.extend(kept_roots());
    games.extend(thirty_and_thirty_one());
    games.extend((1..=16).map(equality));
    games.extend((1..=6).map(squared_equality));
    games.extend(large_games());
    games.push(select_refused(101, 3));
    games.push(select_refused(500, 16));
    games
}

/// The large accepted games.
pub fn large_games() -> Vec<Game> {
    vec![
        deep_maps(6, 1),
        deep_maps(100, 3),
        deep_maps(1_024, 16),
        shared_maps(11, 1),
        shared_maps(200, 2),
        shared_maps(1_024, 16),
        select_heavy(30, 10, 2),
        select_heavy(1_024, 256, 16),
        select_heavy(1_024, 500, 16),
        repeated(&equality(16), 1_024),
        repeated(&squared_equality(6), 1_024),
        repeated(&example15(), 1_024),
        repeated(&example16(), 1_024),
    ]
}
