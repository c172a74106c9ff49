//! Seeded random formula texts, proofs and node tables, whole and damaged.

#![allow(dead_code)]

use crate::families::{
    axiom_record, moved, proof_of_records, records_of_proof, resolution_record, Game, ProofWriter,
    TextWriter,
};
use crate::second::{self, Clause, Formula, Line, Node};

// ------------------------------------------------------------------ chance

/// A small generator of numbers (splitmix64); equal seeds give equal numbers.
#[derive(Clone)]
pub struct Chance {
    state: u64,
}

impl Chance {
    /// A generator from a seed.
    pub fn new(seed: u64) -> Chance {
        Chance { state: seed }
    }

    /// The next 64-bit number.
    pub fn word(&mut self) -> u64 {
        self.state = self.state.wrapping_add(0x9E37_79B9_7F4A_7C15);
        let mut mixed = self.state;
        mixed = (mixed ^ (mixed >> 30)).wrapping_mul(0xBF58_476D_1CE4_E5B9);
        mixed = (mixed ^ (mixed >> 27)).wrapping_mul(0x94D0_49BB_1331_11EB);
        mixed ^ (mixed >> 31)
    }

    /// A number from 0 to end - 1.
    pub fn below(&mut self, end: usize) -> usize {
        (self.word() % end as u64) as usize
    }

    /// A number from first to last.
    pub fn between(&mut self, first: usize, last: usize) -> usize {
        first + self.below(last - first + 1)
    }

    /// True so many times in a hundred.
    pub fn percent(&mut self, times: usize) -> bool {
        self.below(100) < times
    }

    /// One of the given values.
    pub fn one_of<T: Copy>(&mut self, values: &[T]) -> T {
        values[self.below(values.len())]
    }

    /// Put the values into a random order.
    pub fn mix<T>(&mut self, values: &mut [T]) {
        for last in (1..values.len()).rev() {
            values.swap(last, self.below(last + 1));
        }
    }
}

// ------------------------------------------------------------ random texts

/// Tokens that are worth putting anywhere.
const STRANGE: [&str; 34] = [
    "0",
    "-0",
    "00",
    "01",
    "-01",
    "1",
    "-1",
    "2",
    "-2",
    "16",
    "17",
    "63",
    "64",
    "65",
    "-64",
    "-65",
    "256",
    "257",
    "4294967297",
    "18446744073709551617",
    "-18446744073709551617",
    "a",
    "e",
    "p",
    "c",
    "cnf",
    "a1",
    "-",
    "+1",
    "1.5",
    "--1",
    "1-1",
    "x",
    "\0",
];

/// The tokens of a random formula, behind the comments, mostly without a fault.
fn formula_tokens(chance: &mut Chance) -> Vec<Vec<u8>> {
    let variables = match chance.below(10) {
        0 => 0,
        1 => 64,
        2 | 3 => chance.between(17, 64),
        _ => chance.between(1, 12),
    };
    let mut order: Vec<u32> = (1..=variables as u32).collect();
    chance.mix(&mut order);
    if chance.percent(25) {
        order.truncate(chance.below(order.len() + 1));
    }
    let universal_share = chance.one_of(&[0, 10, 30, 60, 100]);
    let most_universals = if chance.percent(20) { 64 } else { 16 };
    let mut tokens: Vec<String> = vec!["p".into(), "cnf".into(), variables.to_string()];
    let count = match chance.below(12) {
        0 => 0,
        1 => 256,
        2 => chance.between(30, 255),
        _ => chance.between(1, 8),
    };
    tokens.push(count.to_string());
    block_tokens(
        chance,
        &order,
        universal_share,
        most_universals,
        &mut tokens,
    );
    for _ in 0..count {
        clause_tokens(chance, &order, &mut tokens);
    }
    tokens.into_iter().map(String::into_bytes).collect()
}

/// Blocks over the variables in their order, with random kinds and lengths.
fn block_tokens(
    chance: &mut Chance,
    order: &[u32],
    universal_share: usize,
    most_universals: usize,
    tokens: &mut Vec<String>,
) {
    let mut universals = 0;
    let mut place = 0;
    while place < order.len() {
        let universal = chance.percent(universal_share) && universals < most_universals;
        let mut length = chance.between(1, 5).min(order.len() - place);
        if universal {
            length = length.min(most_universals - universals);
            universals += length;
        }
        tokens.push(if universal { "a" } else { "e" }.to_string());
        tokens.extend(order[place..place + length].iter().map(|v| v.to_string()));
        tokens.push("0".to_string());
        place += length;
    }
}

/// One clause over the variables of the prefix.
fn clause_tokens(chance: &mut Chance, order: &[u32], tokens: &mut Vec<String>) {
    let mut variables = order.to_vec();
    chance.mix(&mut variables);
    let most = variables.len().min(if chance.percent(5) { 64 } else { 4 });
    variables.truncate(chance.below(most + 1));
    for variable in variables {
        let sign = if chance.percent(50) { "-" } else { "" };
        tokens.push(format!("{}{}", sign, variable));
        if chance.percent(4) {
            tokens.push(format!("{}{}", sign, variable));
        }
    }
    tokens.push("0".to_string());
}

/// Damage the tokens once: swap, delete, double, insert, replace, change a sign or a digit.
fn damage_tokens(chance: &mut Chance, tokens: &mut Vec<Vec<u8>>) {
    if tokens.is_empty() {
        return;
    }
    let place = if chance.percent(30) {
        chance.below(tokens.len().min(8))
    } else {
        chance.below(tokens.len())
    };
    match chance.below(12) {
        9 => {
            // A literal once more with the other sign, soon behind itself.
            let turned = turned_token(&tokens[place]);
            let behind = (place + chance.between(1, 3)).min(tokens.len());
            tokens.insert(behind, turned);
        }
        10 | 11 => {
            // A token once more, soon behind itself: mostly a variable of the prefix.
            let from = chance.below(tokens.len().min(16));
            let double = tokens[from].clone();
            let behind = (from + chance.between(1, 4)).min(tokens.len());
            tokens.insert(behind, double);
        }
        0 => {
            let other = chance.below(tokens.len());
            tokens.swap(place, other);
        }
        1 => {
            tokens.remove(place);
        }
        2 => {
            let double = tokens[place].clone();
            tokens.insert(place, double);
        }
        3 => {
            let strange = chance.one_of(&STRANGE).as_bytes().to_vec();
            let place = chance.below(tokens.len() + 1);
            tokens.insert(place, strange);
        }
        4 => tokens[place] = chance.one_of(&STRANGE).as_bytes().to_vec(),
        5 => tokens[place] = turned_token(&tokens[place]),
        6 => {
            let digits = chance.between(1, 40);
            tokens[place].extend(std::iter::repeat(b'0').take(digits));
        }
        7 => {
            let other = chance.below(tokens.len());
            tokens[place] = tokens[other].clone();
            if chance.percent(50) && tokens[place][0] != b'-' {
                tokens[place].insert(0, b'-');
            }
        }
        _ => tokens.truncate(place),
    }
}

/// A token with its minus taken away, or one put in front.
fn turned_token(token: &[u8]) -> Vec<u8> {
    match token.strip_prefix(b"-") {
        Some(plain) if !plain.is_empty() => plain.to_vec(),
        _ => [b"-", token].concat(),
    }
}

/// A random comment with its LF.
fn comment(chance: &mut Chance) -> Vec<u8> {
    let mut bytes = vec![b'c'];
    for _ in 0..chance.below(20) {
        let byte = chance.word() as u8;
        bytes.push(if byte == b'\n' { b'p' } else { byte });
    }
    bytes.extend_from_slice(
        chance
            .one_of(&["\n", "\r\n", "\n\n", " p cnf 1 1\n"])
            .as_bytes(),
    );
    bytes
}

/// Tokens with random separators between them.
fn joined(chance: &mut Chance, tokens: &[Vec<u8>]) -> Vec<u8> {
    let plain = chance.percent(40);
    let mut text = Vec::new();
    for token in tokens {
        text.extend_from_slice(token);
        if plain {
            text.push(b' ');
        } else {
            let blanks = [" ", "\n", "\t", "\r\n", "  ", "\r", " \t \n"];
            text.extend_from_slice(chance.one_of(&blanks).as_bytes());
        }
    }
    if chance.percent(50) {
        text.pop();
    }
    text
}

/// Damage the bytes once: flip, replace, insert, delete, cut, fill up to a length near the limit.
pub fn damage_bytes(chance: &mut Chance, bytes: &mut Vec<u8>) {
    let place = chance.below(bytes.len() + 1);
    let inside = place < bytes.len();
    match chance.below(6) {
        0 if inside => bytes[place] ^= 1 << chance.below(8),
        1 if inside => bytes[place] = chance.word() as u8,
        2 if inside => {
            bytes.remove(place);
        }
        3 => bytes.truncate(place),
        _ => bytes.insert(place, chance.one_of(b" \t\r\n0159-aecpn\0\x0b\x0c\x80\xff")),
    }
}

/// A text filled up with separators to a length around 65,536.
fn filled_to_limit(chance: &mut Chance, mut text: Vec<u8>) -> Vec<u8> {
    let length = chance.one_of(&[65_535, 65_536, 65_536, 65_537, 65_538, 70_000]);
    if text.len() < length {
        let filling = vec![chance.one_of(b" \n\t\r"); length - text.len()];
        if chance.percent(50) {
            text.extend_from_slice(&filling);
        } else {
            text = [&filling[..], &text[..]].concat();
        }
    }
    text
}

/// A random text: comments, tokens, and none to three damages.
pub fn random_text(chance: &mut Chance) -> Vec<u8> {
    let mut tokens = formula_tokens(chance);
    let damages = chance.one_of(&[0, 0, 1, 1, 1, 2, 3]);
    for _ in 0..damages {
        if chance.percent(70) {
            damage_tokens(chance, &mut tokens);
        }
    }
    let mut text = Vec::new();
    while chance.percent(20) {
        text.extend_from_slice(&comment(chance));
    }
    text.extend_from_slice(&joined(chance, &tokens));
    if damages > 0 && chance.percent(30) {
        damage_bytes(chance, &mut text);
    }
    if chance.percent(2) {
        text = filled_to_limit(chance, text);
    }
    text
}

/// A short random proof for any formula: axioms, some resolutions, or rubbish.
pub fn careless_proof(chance: &mut Chance) -> Vec<u8> {
    let lines = chance.between(1, 4) as u32;
    let mut proof = ProofWriter::default();
    for i in 1..=lines {
        if i < 3 || chance.percent(50) {
            proof.axiom(chance.between(1, 3) as u32);
        } else {
            let (a, b) = (
                chance.between(1, i as usize - 1),
                chance.between(1, i as usize - 1),
            );
            proof.resolve(
                a as u32,
                b as u32,
                chance.between(1, 12) as u32,
                chance.below(4) as u32,
            );
        }
    }
    let mut bytes = proof.bytes();
    if chance.percent(15) {
        damage_bytes(chance, &mut bytes);
    }
    bytes
}

// ----------------------------------------------------------- random proofs

/// A formula with its text, and the records of a proof, all lines of which are in order.
#[derive(Clone)]
pub struct Derivation {
    pub text: Vec<u8>,
    pub formula: Formula,
    pub records: Vec<[u8; 8]>,
    pub lines: Vec<Line>,
    /// Records that were refused, each with the number of lines before it.
    pub refused: Vec<(usize, [u8; 8])>,
    /// The depth of each line's nodes, 0 for a leaf, by column.
    depths: Vec<[u32; 16]>,
}

impl Derivation {
    /// A derivation without lines.
    fn new(text: Vec<u8>) -> Derivation {
        let Ok(formula) = second::read_formula(&text) else {
            panic!("a written text is refused")
        };
        Derivation {
            text,
            formula,
            records: Vec::new(),
            lines: Vec::new(),
            refused: Vec::new(),
            depths: Vec::new(),
        }
    }

    /// The derivation of an accepted game.
    pub fn of_game(game: &Game) -> Derivation {
        let mut derivation = Derivation::new(game.text.clone());
        for record in records_of_proof(&game.proof) {
            assert!(derivation.add(record), "a line of {} is refused", game.name);
        }
        derivation
    }

    /// Add a record if its line is in order; whether it was.
    fn add(&mut self, record: [u8; 8]) -> bool {
        match second::derive(&self.formula, &self.lines, &record) {
            Ok(line) => {
                let mut depths = [0; 16];
                for column in 0..16 {
                    if let Node::Branch { a, b, .. } = line.node[column] {
                        let depth = |end: u32| self.depths[end as usize - 1][column];
                        depths[column] = 1 + depth(a).max(depth(b));
                    }
                }
                self.depths.push(depths);
                self.lines.push(line);
                self.records.push(record);
                true
            }
            Err(_) => false,
        }
    }

    /// The proof file.
    pub fn proof(&self) -> Vec<u8> {
        proof_of_records(&self.records)
    }

    /// The clause of a line, counted from 1.
    fn clause(&self, line: usize) -> Clause {
        self.lines[line - 1].clause
    }

    /// The depth of the deepest map of all lines.
    pub fn deepest(&self) -> u32 {
        (1..=self.lines.len())
            .map(|line| self.depth(line))
            .max()
            .unwrap_or(0)
    }

    /// The depth of a line's deepest map.
    fn depth(&self, line: usize) -> u32 {
        let roots = &self.lines[line - 1].root;
        let columns = 0..self.formula.universals.len();
        columns
            .map(|column| self.depths[roots[column] as usize - 1][column])
            .max()
            .unwrap_or(0)
    }

    /// The merge set of a resolution on x, and whether all its selects are defined:
    /// merge so many times in a hundred where merge and select may be, and merge
    /// where only that may be.
    fn merge_set(
        &self,
        chance: &mut Chance,
        a: usize,
        b: usize,
        x: u32,
        merges: usize,
    ) -> (u32, bool) {
        let (mut set, mut defined) = (0, true);
        for (column, &universal) in self.formula.universals.iter().enumerate() {
            let (root_a, root_b) = (
                self.lines[a - 1].root[column],
                self.lines[b - 1].root[column],
            );
            let may_merge = second::left_of(&self.formula, x, universal);
            if may_merge && chance.percent(merges) {
                set |= 1 << column;
            } else if second::select(&self.lines, column, root_a, root_b).is_none() {
                if may_merge {
                    set |= 1 << column;
                } else {
                    defined = false;
                }
            }
        }
        (set, defined)
    }

    /// Resolve two lines on x, if that may be; whether it was. A resolution that is
    /// refused for its maps alone is kept for itself.
    fn resolve(&mut self, chance: &mut Chance, a: usize, b: usize, x: u32, merges: usize) -> bool {
        let (set, defined) = self.merge_set(chance, a, b, x, merges);
        let universals = self.formula.universals.len();
        let past = usize::from(chance.percent(5));
        let turned = 1 << chance.below((universals + past).clamp(1, 16));
        let refused_set = if defined { set ^ turned } else { set };
        self.keep_refused(
            chance,
            resolution_record(a as u32, b as u32, x, refused_set),
        );
        defined && self.add(resolution_record(a as u32, b as u32, x, set))
    }

    /// Keep a record that makes no line here: the better, the more alike its maps are.
    fn keep_refused(&mut self, chance: &mut Chance, record: [u8; 8]) {
        let chosen = chance.percent(3);
        if self.refused.len() >= 60 {
            return;
        }
        let Err(refusal) = second::derive(&self.formula, &self.lines, &record) else {
            return;
        };
        let alike = refusal.number == 31 && self.roots_alike(&record, refusal.variable);
        if alike || chosen {
            self.refused.push((self.records.len(), record));
        }
    }

    /// Whether both roots of a universal are branches.
    fn roots_alike(&self, record: &[u8; 8], universal: u32) -> bool {
        let (a, b) = parents(record);
        let Some(column) = self.formula.universals.iter().position(|&u| u == universal) else {
            return false;
        };
        let node =
            |line: usize| second::node_at(&self.lines, column, self.lines[line - 1].root[column]);
        matches!(
            (node(a), node(b)),
            (Node::Branch { .. }, Node::Branch { .. })
        )
    }

    /// A proof that ends with one of the refused records.
    pub fn refused_proof(&self, which: usize) -> Vec<u8> {
        let (before, record) = self.refused[which];
        let mut records = self.records[..before].to_vec();
        records.push(record);
        proof_of_records(&records)
    }
}

/// A random prefix: its variables in order with their kinds.
struct Prefix {
    variables: u32,
    order: Vec<(u32, bool)>,
}

/// So many existentials and universals, in random order under random numbers.
fn random_prefix(chance: &mut Chance, existentials: usize, universals: usize) -> Prefix {
    let used = existentials + universals;
    let variables = used.max(chance.one_of(&[used, used, used + 3, 64])).min(64);
    let mut numbers: Vec<u32> = (1..=variables as u32).collect();
    chance.mix(&mut numbers);
    let mut kinds = vec![false; existentials];
    kinds.extend(vec![true; universals]);
    chance.mix(&mut kinds);
    if chance.percent(35) {
        // Existentials to both sides of all universals, as in the equality formulas.
        kinds.sort();
        let right = chance.below(existentials + 1);
        kinds.rotate_left(right.min(existentials));
    }
    let order = kinds
        .iter()
        .zip(&numbers)
        .map(|(&universal, &number)| (number, universal))
        .collect();
    Prefix {
        variables: variables as u32,
        order,
    }
}

impl Prefix {
    /// The variables of one kind, from left to right.
    fn of_kind(&self, universal: bool) -> Vec<u32> {
        self.order
            .iter()
            .filter(|(_, kind)| *kind == universal)
            .map(|(number, _)| *number)
            .collect()
    }

    /// Whether x stands left of u.
    fn left(&self, x: u32, u: u32) -> bool {
        let place = |v: u32| self.order.iter().position(|&(number, _)| number == v);
        place(x) < place(u)
    }

    /// A text with this prefix, in blocks of random length.
    fn writer(&self, chance: &mut Chance) -> TextWriter {
        let mut writer = TextWriter::new(self.variables);
        for &(number, universal) in &self.order {
            let kind = if universal { 'a' } else { 'e' };
            match writer.blocks.last_mut() {
                Some((last, variables)) if *last == kind && chance.percent(80) => {
                    variables.push(number)
                }
                _ => writer.block(kind, &[number]),
            }
        }
        writer
    }
}

/// A refutation after Lemma 4: one axiom for each setting of the existentials,
/// resolved in reverse prefix order; the universals follow a countermodel.
///
/// With `mirrored`, all of it stands twice, under t and under not t, and the two
/// ends are resolved on t: their maps are isomorphic and share no node.
pub fn tree_refutation(
    chance: &mut Chance,
    existentials: usize,
    universals: usize,
    mirrored: bool,
) -> Derivation {
    let prefix = random_prefix(chance, existentials + usize::from(mirrored), universals);
    let mut settings_of = prefix.of_kind(false);
    let t = if mirrored {
        settings_of.remove(chance.below(settings_of.len())) as i32
    } else {
        0
    };
    let mut writer = prefix.writer(chance);
    let signs: &[i32] = if mirrored { &[1, -1] } else { &[1] };
    let salt = chance.word();
    let choices = Chance::new(chance.word());
    let mut axioms: Vec<Vec<u32>> = Vec::new();
    for &sign in signs {
        let mut same = choices.clone();
        let mut numbers = Vec::new();
        for setting in 0..1usize << settings_of.len() {
            let mut clause = falsified_clause(&mut same, &prefix, &settings_of, setting, salt);
            if mirrored {
                clause.push(sign * t);
            }
            numbers.push(writer.clause_once(&clause));
        }
        axioms.push(numbers);
    }
    let mut built = Derivation::new(writer.bytes());
    let merges = chance.one_of(&[0, 30, 70, 100]);
    let choices = Chance::new(chance.word());
    let mut ends = Vec::new();
    for numbers in &axioms {
        ends.push(tree_lines(
            &mut choices.clone(),
            &mut built,
            &settings_of,
            numbers,
            merges,
        ));
    }
    let mut end = ends[0];
    if mirrored {
        built.resolve(chance, ends[0], ends[1], t as u32, merges / 2);
        end = built.lines.len();
    }
    if end < built.lines.len() || chance.percent(30) {
        tidy(&mut built, end);
    }
    built
}

/// The clause that a setting of the existentials and the countermodel's values make
/// false. A value depends on the universal and on the existentials left of it only.
fn falsified_clause(
    chance: &mut Chance,
    prefix: &Prefix,
    existentials: &[u32],
    setting: usize,
    salt: u64,
) -> Vec<i32> {
    let mut clause = Vec::new();
    for (k, &x) in existentials.iter().enumerate() {
        if chance.percent(85) {
            clause.push(if setting >> k & 1 == 0 {
                x as i32
            } else {
                -(x as i32)
            });
        }
    }
    for u in prefix.of_kind(true) {
        let mut seen = salt ^ u64::from(u) << 32;
        for (k, &x) in existentials.iter().enumerate() {
            if prefix.left(x, u) {
                seen = seen.wrapping_mul(3) + (setting >> k & 1) as u64 + 1;
            }
        }
        if chance.percent(70) {
            let value = Chance::new(seen).percent(50);
            clause.push(if value { -(u as i32) } else { u as i32 });
        }
    }
    clause
}

/// The lines of one tree; its last line comes back.
fn tree_lines(
    chance: &mut Chance,
    built: &mut Derivation,
    existentials: &[u32],
    axioms: &[u32],
    merges: usize,
) -> usize {
    let mut level = Vec::new();
    for &number in axioms {
        built.add(axiom_record(number));
        level.push(built.lines.len());
    }
    for (k, &x) in existentials.iter().enumerate().rev() {
        let half = 1 << k;
        let mut next = Vec::new();
        for low in 0..half {
            let (a, b) = (level[low], level[low + half]);
            if !second::has(built.clause(a).plain, x) {
                next.push(a);
            } else if !second::has(built.clause(b).negated, x) {
                next.push(b);
            } else {
                built.resolve(chance, a, b, x, merges);
                next.push(built.lines.len());
            }
        }
        level = next;
    }
    level[0]
}

/// Keep one line and the lines it needs.
fn tidy(built: &mut Derivation, end: usize) {
    let cone = cone_of(&built.records, end);
    let mut number = vec![0u32; built.records.len() + 1];
    let mut records = Vec::new();
    for &line in &cone {
        let record = built.records[line - 1];
        records.push(renamed(&record, &number));
        number[line] = records.len() as u32;
    }
    built.lines.clear();
    built.records.clear();
    built.refused.clear();
    built.depths.clear();
    for record in records {
        built.add(record);
    }
}

/// The parents of a resolution.
pub fn parents(record: &[u8; 8]) -> (usize, usize) {
    let two = |k: usize| usize::from(record[k]) + 256 * usize::from(record[k + 1]);
    (two(1), two(3))
}

/// A record with its parents under new numbers.
fn renamed(record: &[u8; 8], number: &[u32]) -> [u8; 8] {
    if record[0] == 1 {
        return *record;
    }
    let (a, b) = parents(record);
    let merge_set = u32::from(record[6]) + 256 * u32::from(record[7]);
    resolution_record(number[a], number[b], u32::from(record[5]), merge_set)
}

/// A line and all lines it needs, rising.
fn cone_of(records: &[[u8; 8]], line: usize) -> Vec<usize> {
    let mut needed = vec![false; line + 1];
    needed[line] = true;
    for i in (1..=line).rev() {
        if needed[i] && records[i - 1][0] == 2 {
            let (a, b) = parents(&records[i - 1]);
            needed[a] = true;
            needed[b] = true;
        }
    }
    (1..=line).filter(|&i| needed[i]).collect()
}

/// The measures of a derivation that grows line by line.
pub struct Growth {
    pub existentials: usize,
    pub universals: usize,
    pub lines: usize,
}

/// A derivation that grows by random axioms, resolutions and copies. Its last
/// line is an axiom without existential literals, so that it is accepted whole.
pub fn grown(chance: &mut Chance, growth: &Growth) -> Derivation {
    let prefix = random_prefix(chance, growth.existentials, growth.universals);
    let mut writer = prefix.writer(chance);
    let existentials = prefix.of_kind(false);
    let mirror = *existentials.last().unwrap();
    growing_clauses(chance, &prefix, mirror as i32, &mut writer);
    let closing = writer.clause(&closing_clause(chance, &prefix));
    let mut built = Derivation::new(writer.bytes());
    let merges = chance.one_of(&[5, 30, 50, 80, 100]);
    let recent = chance.one_of(&[1, 5, 20, 2_000]);
    let deep = chance.percent(40);
    let mut failures = 0;
    while built.lines.len() + 1 < growth.lines {
        let before = built.lines.len();
        match chance.below(20) {
            0 => copy(chance, &mut built, growth.lines - 1, None),
            1 | 2 => copy(chance, &mut built, growth.lines - 1, Some(mirror)),
            3 => take_axiom(chance, &mut built),
            _ => resolve_somewhere(chance, &mut built, recent, deep, merges),
        }
        if built.lines.len() == before {
            failures += 1;
            if failures % 8 == 0 {
                take_axiom(chance, &mut built);
            }
        }
    }
    built.add(axiom_record(closing));
    built
}

/// Clauses that resolve well: few existentials, universals mostly with one sign;
/// each stands twice where it holds the mirror variable, once with each sign.
fn growing_clauses(chance: &mut Chance, prefix: &Prefix, mirror: i32, writer: &mut TextWriter) {
    let existentials = prefix.of_kind(false);
    let universals = prefix.of_kind(true);
    let usual: Vec<bool> = universals.iter().map(|_| chance.percent(50)).collect();
    let density = chance.one_of(&[10, 30, 60, 100]);
    let faithful = chance.one_of(&[50, 85, 100]);
    let most = if chance.percent(5) { 120 } else { 24 };
    let clauses = chance.between(4, most);
    for _ in 0..clauses {
        let mut variables = existentials.clone();
        chance.mix(&mut variables);
        variables.truncate(chance.between(1, 3));
        let mut clause: Vec<i32> = Vec::new();
        for x in variables {
            clause.push(if chance.percent(50) {
                x as i32
            } else {
                -(x as i32)
            });
        }
        for (k, &u) in universals.iter().enumerate() {
            if chance.percent(density) {
                let sign = usual[k] == chance.percent(faithful);
                clause.push(if sign { u as i32 } else { -(u as i32) });
            }
        }
        writer.clause_once(&clause);
        if chance.percent(30) {
            writer.clause_once(&with_other_universals(chance, &clause, &universals));
        }
        if clause.iter().any(|literal| literal.abs() == mirror) {
            let turned: Vec<i32> = clause
                .iter()
                .map(|&l| if l.abs() == mirror { -l } else { l })
                .collect();
            writer.clause_once(&turned);
        }
    }
}

/// A clause with the same existential literals, and one universal turned or dropped.
fn with_other_universals(chance: &mut Chance, clause: &[i32], universals: &[u32]) -> Vec<i32> {
    let mut other = clause.to_vec();
    let of_universals: Vec<usize> = (0..other.len())
        .filter(|&k| universals.contains(&other[k].unsigned_abs()))
        .collect();
    if !of_universals.is_empty() {
        let place = chance.one_of(&of_universals);
        if chance.percent(60) {
            other[place] = -other[place];
        } else {
            other.remove(place);
        }
    }
    other
}

/// A clause of universal literals only.
fn closing_clause(chance: &mut Chance, prefix: &Prefix) -> Vec<i32> {
    let mut clause = Vec::new();
    for u in prefix.of_kind(true) {
        match chance.below(3) {
            0 => clause.push(u as i32),
            1 => clause.push(-(u as i32)),
            _ => {}
        }
    }
    clause
}

/// Add an axiom of any clause.
fn take_axiom(chance: &mut Chance, built: &mut Derivation) {
    let clause = chance.between(1, built.formula.clauses.len());
    built.add(axiom_record(clause as u32));
}

/// Resolve two lines, mostly recent ones or those with the deepest maps, on a
/// variable that they hold both ways.
fn resolve_somewhere(
    chance: &mut Chance,
    built: &mut Derivation,
    recent: usize,
    deep: bool,
    merges: usize,
) {
    let count = built.lines.len();
    if count < 2 {
        take_axiom(chance, built);
        return;
    }
    let mut a = count - chance.below(recent.min(count));
    if deep && chance.percent(80) {
        let open = (1..=count).filter(|&line| built.clause(line) != Clause::default());
        a = open.max_by_key(|&line| built.depth(line)).unwrap_or(a);
    }
    let start = chance.below(count);
    for step in 0..count.min(40) {
        let b = (start + step) % count + 1;
        if resolve_pair(chance, built, a, b, deep, merges)
            || resolve_pair(chance, built, b, a, deep, merges)
        {
            return;
        }
    }
}

/// Resolve two lines on their only variable that goes both ways, if the result is
/// small (and, where so wanted, not empty); whether it was done.
fn resolve_pair(
    chance: &mut Chance,
    built: &mut Derivation,
    a: usize,
    b: usize,
    not_empty: bool,
    merges: usize,
) -> bool {
    let both = built.clause(a).plain & built.clause(b).negated;
    if both.count_ones() != 1 {
        return false;
    }
    let x = both.trailing_zeros() + 1;
    let result = second::resolvent(built.clause(a), built.clause(b), x);
    let wanted = !not_empty || result != Clause::default() || chance.percent(5);
    small(result) && wanted && built.resolve(chance, a, b, x, merges)
}

/// A clause of at most three literals, none of them both ways.
fn small(clause: Clause) -> bool {
    clause.plain & clause.negated == 0 && (clause.plain | clause.negated).count_ones() <= 3
}

/// Derive a line a second time with fresh lines; with a mirror variable, under the
/// turned sign of it, and then resolve line and copy on that variable by selects.
///
/// Some copies are uneven: old lines stay in use, axioms are doubled or replaced by
/// others with the same existential literals. Then the maps may not be isomorphic.
fn copy(chance: &mut Chance, built: &mut Derivation, most: usize, mirror: Option<u32>) {
    let count = built.lines.len();
    if count == 0 {
        return;
    }
    let line = count - chance.below(count.min(60));
    let cone = cone_of(&built.records, line);
    if count + 3 * cone.len() + 1 > most {
        return;
    }
    let uneven = if chance.percent(50) {
        0
    } else {
        chance.between(3, 30)
    };
    let mut number = vec![0u32; line + 1];
    for &old in &cone {
        let record = built.records[old - 1];
        let clause = built.clause(old);
        let holds_mirror = mirror.is_some_and(|t| second::has(clause.plain | clause.negated, t));
        if !holds_mirror && chance.percent(uneven) {
            number[old] = old as u32;
            continue;
        }
        let mut turned = match mirror {
            Some(t) if record[0] == 1 => turned_axiom(built, &record, t),
            Some(t) if u32::from(record[5]) == t => return,
            _ => Some(record),
        };
        if record[0] == 1 && chance.percent(uneven / 2) {
            turned = turned.map(|record| alike_axiom(chance, built, &record));
        }
        let Some(turned) = turned else { return };
        if record[0] == 2 && chance.percent(uneven) {
            double_axiom(chance, built, &record, &mut number);
        }
        if !built.add(renamed(&turned, &number)) {
            return;
        }
        number[old] = built.lines.len() as u32;
    }
    if let Some(t) = mirror {
        let fresh = built.lines.len();
        if second::has(built.clause(line).plain, t) {
            built.resolve(chance, line, fresh, t, 0);
        } else if second::has(built.clause(line).negated, t) {
            built.resolve(chance, fresh, line, t, 0);
        }
    }
}

/// If a parent of a record is an axiom, let the copy of that axiom stand a second time.
fn double_axiom(chance: &mut Chance, built: &mut Derivation, record: &[u8; 8], number: &mut [u32]) {
    let (a, b) = parents(record);
    let parent = if chance.percent(50) { a } else { b };
    let again = built.records[number[parent] as usize - 1];
    if again[0] == 1 && built.add(again) {
        number[parent] = built.lines.len() as u32;
    }
}

/// An axiom of a clause with the same existential literals.
fn alike_axiom(chance: &mut Chance, built: &Derivation, record: &[u8; 8]) -> [u8; 8] {
    let kept = second::existentials(&built.formula);
    let clauses = &built.formula.clauses;
    let clause = clauses[parents(record).0 - 1];
    let alike: Vec<usize> = (1..=clauses.len())
        .filter(|&c| clauses[c - 1].plain & kept == clause.plain & kept)
        .filter(|&c| clauses[c - 1].negated & kept == clause.negated & kept)
        .collect();
    axiom_record(chance.one_of(&alike) as u32)
}

/// The axiom whose clause has the mirror variable turned, where the formula has it.
fn turned_axiom(built: &Derivation, record: &[u8; 8], t: u32) -> Option<[u8; 8]> {
    let clause = built.formula.clauses[parents(record).0 - 1];
    let bit = second::bit(t);
    let mut turned = clause;
    if (clause.plain | clause.negated) & bit != 0 {
        turned.plain ^= bit;
        turned.negated ^= bit;
    }
    let found = built
        .formula
        .clauses
        .iter()
        .position(|&other| other == turned)?;
    Some(axiom_record(found as u32 + 1))
}

/// A random derivation of random measures, and whether it is small enough to play out.
pub fn random_derivation(chance: &mut Chance) -> Derivation {
    match chance.below(100) {
        0..=29 => {
            let (x, u) = (chance.between(1, 4), chance.between(0, 4));
            let mirrored = chance.percent(50);
            tree_refutation(chance, x, u, mirrored)
        }
        30..=37 => {
            let (x, u) = (chance.between(4, 6), chance.between(1, 16));
            let mirrored = chance.percent(60);
            tree_refutation(chance, x, u, mirrored)
        }
        38..=97 => {
            let growth = Growth {
                existentials: chance.between(2, 6),
                universals: chance.one_of(&[0, 1, 1, 2, 3, 4, 8, 16]),
                lines: chance.between(4, 90),
            };
            grown(chance, &growth)
        }
        98 => {
            let growth = Growth {
                existentials: chance.between(2, 40),
                universals: chance.between(1, 16),
                lines: chance.between(100, 500),
            };
            grown(chance, &growth)
        }
        _ => {
            let growth = Growth {
                existentials: chance.between(2, 6),
                universals: chance.one_of(&[1, 2, 4, 16]),
                lines: chance.one_of(&[1_023, 1_024]),
            };
            grown(chance, &growth)
        }
    }
}

// ------------------------------------------------------------ pairs of maps

/// A map to be built: leaves and branches, ends before their branches, the root last.
/// A leaf has one value for each universal: 0 absent, 1 plain, 2 negated.
#[derive(Clone, PartialEq)]
pub enum Plan {
    Leaf(Vec<usize>),
    Branch(usize, usize, usize),
}

/// A random plan over so many variables and universals.
fn random_plan(
    chance: &mut Chance,
    nodes: usize,
    variables: usize,
    universals: usize,
) -> Vec<Plan> {
    let values = chance.one_of(&[1, 2, 3]);
    let mut plan: Vec<Plan> = Vec::new();
    for k in 0..nodes {
        let leaf = k == 0 || (k + 1 < nodes && chance.percent(30));
        if leaf {
            plan.push(Plan::Leaf(
                (0..universals)
                    .map(|_| chance.below(values + 1) % 3)
                    .collect(),
            ));
        } else {
            let recent = |chance: &mut Chance| {
                let back = if chance.percent(60) {
                    1 + chance.below(3)
                } else {
                    1 + chance.below(k)
                };
                k - back.min(k)
            };
            let ends = (recent(chance), recent(chance));
            plan.push(Plan::Branch(chance.below(variables), ends.0, ends.1));
        }
    }
    reached_part(&plan)
}

/// The nodes of a plan that its root reaches, under new numbers.
fn reached_part(plan: &[Plan]) -> Vec<Plan> {
    let mut reached = vec![false; plan.len()];
    reached[plan.len() - 1] = true;
    for k in (0..plan.len()).rev() {
        if let (true, Plan::Branch(_, a, b)) = (reached[k], &plan[k]) {
            reached[*a] = true;
            reached[*b] = true;
        }
    }
    let mut number = vec![0; plan.len()];
    let mut part = Vec::new();
    for k in (0..plan.len()).filter(|&k| reached[k]) {
        number[k] = part.len();
        part.push(match &plan[k] {
            Plan::Leaf(values) => Plan::Leaf(values.clone()),
            Plan::Branch(x, a, b) => Plan::Branch(*x, number[*a], number[*b]),
        });
    }
    part
}

/// The plan with one small change, often of its sharing alone, or with none.
fn changed_plan(chance: &mut Chance, plan: &[Plan], variables: usize) -> Vec<Plan> {
    let mut changed = plan.to_vec();
    let k = chance.below(plan.len());
    match (chance.below(8), changed[k].clone()) {
        (0 | 1, Plan::Branch(x, a, b)) => {
            // One end gets a node of its own in place of a shared one.
            let end = if chance.percent(50) { a } else { b };
            changed.insert(end + 1, changed[end].clone());
            for node in &mut changed[end + 2..] {
                if let Plan::Branch(_, a, b) = node {
                    *a += usize::from(*a > end);
                    *b += usize::from(*b > end);
                }
            }
            let (a, b) = (a + usize::from(a > end), b + usize::from(b > end));
            changed[k + 1] = if end == a && (end != b || chance.percent(50)) {
                Plan::Branch(x, end + 1, b)
            } else {
                Plan::Branch(x, a, end + 1)
            };
        }
        (2, _) => {
            // All that go to one node go to an earlier one like it.
            if let Some(like) = (0..k).find(|&other| plan[other] == plan[k]) {
                for node in &mut changed[k + 1..] {
                    if let Plan::Branch(_, a, b) = node {
                        *a = if *a == k { like } else { *a };
                        *b = if *b == k { like } else { *b };
                    }
                }
            }
        }
        (3, Plan::Leaf(mut values)) if !values.is_empty() => {
            let universal = chance.below(values.len());
            values[universal] = (values[universal] + chance.between(1, 2)) % 3;
            changed[k] = Plan::Leaf(values);
        }
        (4, Plan::Branch(_, a, b)) => changed[k] = Plan::Branch(chance.below(variables), a, b),
        (5, Plan::Branch(x, a, b)) => changed[k] = Plan::Branch(x, b, a),
        (6, Plan::Branch(x, a, _)) => changed[k] = Plan::Branch(x, a, chance.below(k)),
        _ => {}
    }
    reached_part(&changed)
}

/// The variables of a pair of maps: branch variables, carriers y and z, and t.
struct Carriers {
    x: Vec<i32>,
    y: i32,
    z: i32,
    t: i32,
    universals: Vec<i32>,
}

/// Two maps, one under t and one under not t, selected against each other by the
/// last record: it is either the derivation's last line or kept as refused.
pub fn pair_of_maps(chance: &mut Chance) -> Derivation {
    let variables = chance.between(1, 4);
    let universals = chance.one_of(&[1, 1, 2, 3, 16]);
    let nodes = if chance.percent(10) {
        chance.between(20, 90)
    } else {
        chance.between(1, 14)
    };
    let plan = random_plan(chance, nodes, variables, universals);
    let mut other = changed_plan(chance, &plan, variables);
    if chance.percent(20) {
        other = changed_plan(chance, &other, variables);
    }
    let plans = if chance.percent(50) {
        [plan, other]
    } else {
        [other, plan]
    };

    let mut numbers: Vec<u32> = (1..=(variables + universals + 3) as u32).collect();
    chance.mix(&mut numbers);
    let mut writer = TextWriter::new(numbers.len() as u32);
    writer.block('e', &numbers[..variables + 2]);
    writer.block('a', &numbers[variables + 2..variables + 2 + universals]);
    writer.block('e', &numbers[variables + 2 + universals..]);
    let numbers: Vec<i32> = numbers.iter().map(|&number| number as i32).collect();
    let carriers = Carriers {
        x: numbers[..variables].to_vec(),
        y: numbers[variables],
        z: numbers[variables + 1],
        t: numbers[numbers.len() - 1],
        universals: numbers[variables + 2..variables + 2 + universals].to_vec(),
    };
    let leaves = plan_clauses(&carriers, &plans, &mut writer);
    let mut built = Derivation::new(writer.bytes());
    let first = plan_lines(chance, &mut built, &carriers, &plans[0], &leaves[0]);
    let second = plan_lines(chance, &mut built, &carriers, &plans[1], &leaves[1]);
    let record = resolution_record(first as u32, second as u32, carriers.t as u32, 0);
    if !built.add(record) {
        built.refused = vec![(built.records.len(), record)];
    }
    built
}

/// The clauses of a pair: 1 (-z y), 2 (-y), for each x (-y x z) and (-y -x), then the
/// leaves (y t ..) and (y -t ..). The clause numbers of the leaves come back.
fn plan_clauses(
    carriers: &Carriers,
    plans: &[Vec<Plan>; 2],
    writer: &mut TextWriter,
) -> [Vec<u32>; 2] {
    let (y, z, t) = (carriers.y, carriers.z, carriers.t);
    writer.clause(&[-z, y]);
    writer.clause(&[-y]);
    for &x in &carriers.x {
        writer.clause(&[-y, x, z]);
        writer.clause(&[-y, -x]);
    }
    let mut leaves = [Vec::new(), Vec::new()];
    for (which, sign) in [(0, 1), (1, -1)] {
        for node in &plans[which] {
            let mut clause = vec![y, sign * t];
            if let Plan::Leaf(values) = node {
                for (&u, &value) in carriers.universals.iter().zip(values) {
                    match value {
                        1 => clause.push(u),
                        2 => clause.push(-u),
                        _ => {}
                    }
                }
            }
            leaves[which].push(writer.clause_once(&clause));
        }
    }
    leaves
}

/// The lines that build one plan; the last one, without y, comes back.
fn plan_lines(
    chance: &mut Chance,
    built: &mut Derivation,
    carriers: &Carriers,
    plan: &[Plan],
    leaves: &[u32],
) -> usize {
    let (y, z) = (carriers.y as u32, carriers.z as u32);
    let all = ((1u64 << carriers.universals.len()) - 1) as u32;
    let mut take = |record: [u8; 8]| {
        assert!(built.add(record), "a line of a pair of maps is refused");
        built.lines.len() as u32
    };
    let z_to_y = take(axiom_record(1));
    let end = take(axiom_record(2));
    let mut turns = Vec::new();
    for k in 0..carriers.x.len() as u32 {
        turns.push((take(axiom_record(3 + 2 * k)), take(axiom_record(4 + 2 * k))));
    }
    let mut lines = Vec::new();
    for (k, node) in plan.iter().enumerate() {
        if chance.percent(5) {
            take(axiom_record(2));
        }
        lines.push(match node {
            Plan::Leaf(_) => take(axiom_record(leaves[k])),
            Plan::Branch(x, a, b) => {
                let with_x = take(resolution_record(lines[*a], turns[*x].0, y, 0));
                let with_not_x = take(resolution_record(lines[*b], turns[*x].1, y, 0));
                let branch = take(resolution_record(
                    with_x,
                    with_not_x,
                    carriers.x[*x] as u32,
                    all,
                ));
                take(resolution_record(branch, z_to_y, z, 0))
            }
        });
    }
    take(resolution_record(lines[plan.len() - 1], end, y, 0)) as usize
}

// ---------------------------------------------------------- damaged proofs

/// Damage one field of one record, or the order or the number of the records, or the head.
pub fn damaged_proof(chance: &mut Chance, derivation: &Derivation) -> Vec<u8> {
    let mut records = derivation.records.clone();
    let damages = chance.one_of(&[1, 1, 1, 2]);
    if chance.percent(25) {
        spoil_select(chance, derivation, &mut records);
        if chance.percent(80) {
            return proof_of_records(&records);
        }
    }
    for _ in 0..damages {
        let i = chance.below(records.len());
        damage_record(chance, derivation, &mut records, i);
    }
    if chance.percent(8) {
        let i = chance.below(records.len());
        let j = chance.below(records.len());
        records.swap(i, j);
    }
    if chance.percent(6) && records.len() > 1 {
        let kept = chance.between(1, records.len() - 1);
        records.truncate(kept);
    }
    if chance.percent(4) && records.len() > 1 {
        let from = chance.below(records.len());
        records.remove(from);
    }
    if chance.percent(2) {
        records.resize(chance.one_of(&[1_024, 1_025, 1_026]), records[0]);
    }
    let mut proof = proof_of_records(&records);
    if chance.percent(6) {
        damage_head(chance, &mut proof);
    }
    proof
}

/// Change the maps, and not the clauses, somewhere below a select of two maps that are
/// no leaves: whether they still are isomorphic depends on one node far down.
fn spoil_select(chance: &mut Chance, derivation: &Derivation, records: &mut [[u8; 8]]) {
    let selects: Vec<usize> = (1..=records.len())
        .filter(|&line| selects_branches(derivation, line))
        .collect();
    if selects.is_empty() {
        return;
    }
    let (a, b) = parents(&derivation.records[chance.one_of(&selects) - 1]);
    let cone = cone_of(&derivation.records, if chance.percent(50) { a } else { b });
    let line = chance.one_of(&cone);
    let record = &mut records[line - 1];
    if record[0] == 1 {
        *record = alike_axiom(chance, derivation, record);
    } else if chance.percent(50) {
        redirect(chance, derivation, record);
    } else {
        let bit = chance.below(derivation.formula.universals.len());
        record[6 + bit / 8] ^= 1 << (bit % 8);
    }
}

/// Whether a line selects between two maps that are no leaves and have two roots.
fn selects_branches(derivation: &Derivation, line: usize) -> bool {
    let record = &derivation.records[line - 1];
    if record[0] != 2 {
        return false;
    }
    let (a, b) = parents(record);
    (0..derivation.formula.universals.len()).any(|column| {
        let root = |line: usize| derivation.lines[line - 1].root[column];
        let branch = |number: u32| {
            matches!(
                second::node_at(&derivation.lines, column, number),
                Node::Branch { .. }
            )
        };
        root(line) as usize != line && root(a) != root(b) && branch(root(a)) && branch(root(b))
    })
}

/// Damage the head or the length of a proof file.
fn damage_head(chance: &mut Chance, proof: &mut Vec<u8>) {
    match chance.below(5) {
        0 => {
            let place = chance.below(7);
            proof[place] = chance.word() as u8;
        }
        1 => {
            let place = chance.below(7);
            proof[place] ^= 1 << chance.below(8);
        }
        2 => proof.truncate(chance.below(proof.len() + 1)),
        3 => proof.push(chance.word() as u8),
        _ => {
            let more = chance.between(1, 20);
            proof.extend(std::iter::repeat(0).take(more));
        }
    }
}

/// Damage one field of one record.
fn damage_record(chance: &mut Chance, derivation: &Derivation, records: &mut [[u8; 8]], i: usize) {
    let line = i + 1;
    let count = derivation.formula.clauses.len();
    let two = |value: usize| [value as u8, (value >> 8) as u8];
    if chance.percent(6) {
        records[i][0] = chance.one_of(&[0, 1, 2, 3, 4, 129, 255]);
        return;
    }
    if records[i][0] == 1 {
        match chance.below(4) {
            0 => {
                let place = chance.between(3, 7);
                records[i][place] = chance.one_of(&[1, 2, 128, 255]);
            }
            1 => {
                let clause = chance.one_of(&[0, count + 1, 256, 257, 65_535]);
                records[i][1..3].copy_from_slice(&two(clause));
            }
            _ => records[i][1..3].copy_from_slice(&two(chance.between(1, count))),
        }
        return;
    }
    let (a, b) = parents(&records[i]);
    match chance.below(14) {
        0 => {
            let parent = chance.one_of(&[0, line, line + 1, 1_024, 1_025, 65_535, 256 + a]);
            records[i][1..3].copy_from_slice(&two(parent));
        }
        1 => {
            let parent = chance.one_of(&[0, line, line + 1, 1_024, 1_025, 65_535, 256 + b]);
            records[i][3..5].copy_from_slice(&two(parent));
        }
        2 => {
            records[i][1..3].copy_from_slice(&two(b));
            records[i][3..5].copy_from_slice(&two(a));
        }
        3 => records[i][1..3].copy_from_slice(&two(chance.between(1, line))),
        4 => records[i][3..5].copy_from_slice(&two(chance.between(1, line))),
        5 => records[i][5] = chance.one_of(&[0, 1, 63, 64, 65, 128, 255]),
        6 => {
            let prefix = &derivation.formula.prefix;
            records[i][5] = prefix[chance.below(prefix.len())].variable as u8;
        }
        7 => records[i][5] ^= 64,
        8 => {
            let universals = derivation.formula.universals.len();
            let bit = chance.below((universals + 2).min(16));
            records[i][6 + bit / 8] ^= 1 << (bit % 8);
        }
        9 => {
            let bit = chance.below(16);
            records[i][6 + bit / 8] ^= 1 << (bit % 8);
        }
        10 => {
            let set = (1usize << derivation.formula.universals.len()) - 1;
            records[i][6..8].copy_from_slice(&two(set));
        }
        11 => records[i][6..8].copy_from_slice(&[0, 0]),
        _ => redirect(chance, derivation, &mut records[i]),
    }
}

/// Put in place of a parent another line with the same clause: the maps change alone.
fn redirect(chance: &mut Chance, derivation: &Derivation, record: &mut [u8; 8]) {
    let (a, b) = parents(record);
    let first = chance.percent(50);
    let parent = if first { a } else { b };
    if parent < 1 || parent > derivation.lines.len() {
        return;
    }
    let clause = derivation.clause(parent);
    let same: Vec<usize> = (1..=derivation.lines.len())
        .filter(|&line| derivation.clause(line) == clause)
        .collect();
    let other = chance.one_of(&same);
    let place = if first { 1 } else { 3 };
    record[place] = other as u8;
    record[place + 1] = (other >> 8) as u8;
}

/// A derivation behind another one of the same formula, for longer files.
pub fn doubled(derivation: &Derivation) -> Vec<u8> {
    let mut records = derivation.records.clone();
    let by = records.len() as u32;
    records.extend(derivation.records.iter().map(|record| moved(record, by)));
    proof_of_records(&records)
}

// -------------------------------------------------------------- node tables

/// A node table of random words of a chosen kind, up to the given length.
pub fn random_nodes(chance: &mut Chance, length: usize) -> Vec<u32> {
    let hostile = chance.one_of(&[0, 0, 1, 5, 30, 100]);
    let leaves = chance.one_of(&[1, 10, 50]);
    let mut nodes = Vec::with_capacity(length);
    for place in 0..length {
        let number = (place / 16 + 1) as u32;
        nodes.push(if chance.percent(hostile) {
            hostile_word(chance, number)
        } else if number == 1 || chance.percent(leaves) {
            chance.between(1, 3) as u32
        } else {
            branch_word(chance, number)
        });
    }
    nodes
}

/// A branch whose ends are below its own number.
fn branch_word(chance: &mut Chance, number: u32) -> u32 {
    let near = chance.percent(50);
    let mut end = || {
        let back = if near {
            chance.between(1, 3)
        } else {
            chance.between(1, 1_023)
        } as u32;
        let number = number.min(1_024);
        if back < number {
            number - back
        } else {
            1
        }
    };
    let (a, b) = (end(), end());
    second::word_of_node(second::Node::Branch {
        x: chance.between(1, 64) as u32,
        a,
        b,
    })
}

/// A word that playing must refuse, or nearly so.
fn hostile_word(chance: &mut Chance, number: u32) -> u32 {
    let number = number.min(1_024);
    let good = branch_word(chance, number.max(2));
    match chance.below(11) {
        0 => 0,
        10 => (good & !(63 << 20)) | 64 << 20,
        1 => chance.between(4, 1_100) as u32,
        2 => chance.word() as u32,
        3 => good | 1 << 31,
        4 => good | 1 << chance.between(26, 29),
        5 => good & !(1 << 30),
        6 => (good & !1_023) | (number - 1),
        7 => (good & !(1_023 << 10)) | (number - 1) << 10,
        8 => good | 1_023,
        _ => good | 1_023 << 10,
    }
}
