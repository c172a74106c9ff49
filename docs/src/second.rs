//! A second checker, written from the scope page alone: reading a formula,
//! checking a formula text with a proof, playing one map.
//!
//! Reading and checking first work everything out in plain values of this
//! module (a formula, then its lines). Only then are the lent tables written,
//! once. Refusals travel as the error of a `Result`.

#![allow(dead_code)]

/// Text at most 65,536 bytes.
pub const TEXT_BYTES: usize = 65_536;
/// Minimum length of the prefix table.
pub const PREFIX_WORDS: usize = 64;
/// Minimum length of the clause table.
pub const CLAUSE_WORDS: usize = 512;
/// Minimum length of the line table.
pub const LINE_WORDS: usize = 2_048;
/// Minimum length of the nodes table, and of the roots table.
pub const MAP_WORDS: usize = 16_384;
/// V from 0 to 64.
pub const MOST_VARIABLES: u32 = 64;
/// At most 16 universal variables: the width of a row.
pub const MOST_UNIVERSALS: usize = 16;
/// Clauses 0 to 256.
pub const MOST_CLAUSES: u32 = 256;
/// Proof lines 1 to 1,024.
pub const MOST_LINES: usize = 1_024;

/// What reading and checking answer.
#[repr(C)]
#[derive(Clone, Copy, Debug, Default, PartialEq, Eq)]
pub struct Reply {
    pub number: u32,
    pub place: u32,
    pub variable: u32,
    pub variables: u32,
    pub clauses: u32,
    pub universals: u32,
    pub lines: u32,
}

/// What playing answers: value 1 star, 2 one, 3 zero, and 0 with a refusal.
#[repr(C)]
#[derive(Clone, Copy, Debug, Default, PartialEq, Eq)]
pub struct Played {
    pub number: u32,
    pub value: u32,
}

/// A refusal: its number, its place, its variable.
#[derive(Clone, Copy, Debug, PartialEq, Eq)]
pub struct Refusal {
    pub number: u32,
    pub place: u32,
    pub variable: u32,
}

/// The literals of a clause: variable v is bit v-1 of the word of its sign.
#[derive(Clone, Copy, Debug, Default, PartialEq, Eq)]
pub struct Clause {
    pub plain: u64,
    pub negated: u64,
}

/// One place of the prefix.
#[derive(Clone, Copy, Debug, PartialEq, Eq)]
pub struct Quantified {
    pub variable: u32,
    pub universal: bool,
}

/// A formula: V, the prefix from left to right, the clauses.
#[derive(Clone, Debug, Default)]
pub struct Formula {
    pub variables: u32,
    pub prefix: Vec<Quantified>,
    pub universals: Vec<u32>,
    pub clauses: Vec<Clause>,
}

/// A node: none, a leaf, or a branch: at x = 0 go to a, else to b.
#[derive(Clone, Copy, Debug, PartialEq, Eq)]
pub enum Node {
    None,
    Star,
    One,
    Zero,
    Branch { x: u32, a: u32, b: u32 },
}

/// A line: its clause, and for each universal the node made here and the root.
#[derive(Clone, Debug)]
pub struct Line {
    pub clause: Clause,
    pub node: [Node; MOST_UNIVERSALS],
    pub root: [u32; MOST_UNIVERSALS],
}

// ---------------------------------------------------------------- services

/// Read a formula.
pub fn read(text: &[u8], prefix: &mut [u32], clauses: &mut [u64]) -> Reply {
    if prefix.len() < PREFIX_WORDS || clauses.len() < CLAUSE_WORDS {
        return refused(without_place(2));
    }
    if text.len() > TEXT_BYTES {
        return refused(without_place(1));
    }
    prefix[..PREFIX_WORDS].fill(0);
    clauses[..CLAUSE_WORDS].fill(0);
    match read_formula(text) {
        Err(refusal) => refused(refusal),
        Ok(formula) => {
            write_formula(&formula, prefix, clauses);
            passed(&formula, 0)
        }
    }
}

/// Check a formula text with a proof.
pub fn check(
    text: &[u8],
    proof: &[u8],
    prefix: &mut [u32],
    clauses: &mut [u64],
    lines: &mut [u64],
    nodes: &mut [u32],
    roots: &mut [u32],
) -> Reply {
    if prefix.len() < PREFIX_WORDS
        || clauses.len() < CLAUSE_WORDS
        || lines.len() < LINE_WORDS
        || nodes.len() < MAP_WORDS
        || roots.len() < MAP_WORDS
    {
        return refused(without_place(2));
    }
    if text.len() > TEXT_BYTES {
        return refused(without_place(1));
    }
    prefix[..PREFIX_WORDS].fill(0);
    clauses[..CLAUSE_WORDS].fill(0);
    lines[..LINE_WORDS].fill(0);
    nodes[..MAP_WORDS].fill(0);
    roots[..MAP_WORDS].fill(0);
    match check_proof(text, proof) {
        Err(refusal) => refused(refusal),
        Ok((formula, derived)) => {
            write_formula(&formula, prefix, clauses);
            write_lines(&derived, lines, nodes, roots);
            passed(&formula, derived.len() as u32)
        }
    }
}

/// Play one map on given settings: walk from the root to a leaf.
pub fn play(column: u32, root: u32, nodes: &[u32], settings: u64) -> Played {
    let column_fits = column >= 1 && column <= MOST_UNIVERSALS as u32;
    let root_fits = root >= 1 && root <= MOST_LINES as u32;
    if !column_fits || !root_fits || nodes.len() < MAP_WORDS {
        return not_played(41);
    }
    let mut here = root;
    loop {
        let word = nodes[MOST_UNIVERSALS * (here as usize - 1) + column as usize - 1];
        match node_of_word(word) {
            Node::None => return not_played(42),
            Node::Star => return played(1),
            Node::One => return played(2),
            Node::Zero => return played(3),
            Node::Branch { x, a, b } => {
                if a >= here || b >= here {
                    return not_played(42);
                }
                here = if has(settings, x) { b } else { a };
            }
        }
    }
}

/// What the bench program prints, whole.
pub fn printed(text: &[u8], proof: &[u8]) -> String {
    let mut prefix = vec![0; PREFIX_WORDS];
    let mut clauses = vec![0; CLAUSE_WORDS];
    let mut lines = vec![0; LINE_WORDS];
    let mut nodes = vec![0; MAP_WORDS];
    let mut roots = vec![0; MAP_WORDS];
    let reply = check(
        text,
        proof,
        &mut prefix,
        &mut clauses,
        &mut lines,
        &mut nodes,
        &mut roots,
    );
    if reply.number != 0 {
        return format!(
            "refused {} {} {}\n",
            reply.number, reply.place, reply.variable
        );
    }
    let mut out = format!("accepted {}\n", reply.lines);
    let last_row = MOST_UNIVERSALS * (reply.lines as usize - 1);
    let universals = prefix.iter().filter(|&&word| word > 256);
    for (column, word) in universals.enumerate() {
        let root = roots[last_row + column];
        out.push_str(&format!("map {} root {}\n", word - 256, root));
        print_map(column, root, &nodes, &mut out);
    }
    out
}

/// The nodes of one map, falling: number and leaf, or variable, end for 1, end for 0.
fn print_map(column: usize, root: u32, nodes: &[u32], out: &mut String) {
    let mut reached = [false; MOST_LINES + 1];
    reached[root as usize] = true;
    for number in (1..=root).rev() {
        if !reached[number as usize] {
            continue;
        }
        match node_of_word(nodes[MOST_UNIVERSALS * (number as usize - 1) + column]) {
            Node::None => out.push_str(&format!("{} none\n", number)),
            Node::Star => out.push_str(&format!("{} star\n", number)),
            Node::One => out.push_str(&format!("{} one\n", number)),
            Node::Zero => out.push_str(&format!("{} zero\n", number)),
            Node::Branch { x, a, b } => {
                out.push_str(&format!("{} if {} then {} else {}\n", number, x, b, a));
                reached[a as usize] = true;
                reached[b as usize] = true;
            }
        }
    }
}

// ----------------------------------------------------------------- replies

/// A refusal without place and variable.
fn without_place(number: u32) -> Refusal {
    at(number, 0)
}

/// A refusal at a byte offset, or at a line.
fn at(number: u32, place: usize) -> Refusal {
    Refusal {
        number,
        place: place as u32,
        variable: 0,
    }
}

/// A refusal at a line for one universal.
fn at_universal(number: u32, line: usize, universal: u32) -> Refusal {
    let mut refusal = at(number, line);
    refusal.variable = universal;
    refusal
}

/// The reply of a refusal: 0 for V and each count.
fn refused(refusal: Refusal) -> Reply {
    Reply {
        number: refusal.number,
        place: refusal.place,
        variable: refusal.variable,
        ..Reply::default()
    }
}

/// The reply of success: V, clause count, universal count, and n when checking.
fn passed(formula: &Formula, lines: u32) -> Reply {
    Reply {
        variables: formula.variables,
        clauses: formula.clauses.len() as u32,
        universals: formula.universals.len() as u32,
        lines,
        ..Reply::default()
    }
}

/// The answer of a play that came to a leaf.
fn played(value: u32) -> Played {
    Played { number: 0, value }
}

/// The answer of a refused play: its number and no value.
fn not_played(number: u32) -> Played {
    Played { number, value: 0 }
}

// ------------------------------------------------------------------ tables

/// Fill the prefix table and the clause table; they come here all zero.
fn write_formula(formula: &Formula, prefix: &mut [u32], clauses: &mut [u64]) {
    for (k, quantified) in formula.prefix.iter().enumerate() {
        prefix[k] = quantified.variable + if quantified.universal { 256 } else { 0 };
    }
    for (c, clause) in formula.clauses.iter().enumerate() {
        clauses[2 * c] = clause.plain;
        clauses[2 * c + 1] = clause.negated;
    }
}

/// Fill the line table and the rows of nodes and roots; they come here all zero.
fn write_lines(derived: &[Line], lines: &mut [u64], nodes: &mut [u32], roots: &mut [u32]) {
    for (i, line) in derived.iter().enumerate() {
        lines[2 * i] = line.clause.plain;
        lines[2 * i + 1] = line.clause.negated;
        for column in 0..MOST_UNIVERSALS {
            nodes[MOST_UNIVERSALS * i + column] = word_of_node(line.node[column]);
            roots[MOST_UNIVERSALS * i + column] = line.root[column];
        }
    }
}

/// The word of a node.
pub fn word_of_node(node: Node) -> u32 {
    match node {
        Node::None => 0,
        Node::Star => 1,
        Node::One => 2,
        Node::Zero => 3,
        Node::Branch { x, a, b } => (1 << 30) + ((x - 1) << 20) + ((a - 1) << 10) + (b - 1),
    }
}

/// The node of a word; none for a word that is no leaf and no branch with x in 1..64.
pub fn node_of_word(word: u32) -> Node {
    match word {
        1 => Node::Star,
        2 => Node::One,
        3 => Node::Zero,
        _ => {
            let first = 1 << 30;
            let end = first + (MOST_VARIABLES << 20);
            if word < first || word >= end {
                return Node::None;
            }
            Node::Branch {
                x: ((word - first) >> 20) + 1,
                a: ((word >> 10) & 1023) + 1,
                b: (word & 1023) + 1,
            }
        }
    }
}

/// Whether a set of variables holds the variable (1 to 64).
pub fn has(set: u64, variable: u32) -> bool {
    set & bit(variable) != 0
}

/// Variable v is bit v-1.
pub fn bit(variable: u32) -> u64 {
    1 << (variable - 1)
}

// ------------------------------------------------------------ formula text

/// A token: its first byte's offset and its bytes.
struct Token<'a> {
    offset: usize,
    bytes: &'a [u8],
}

/// The text and how far it has been read.
struct Tokens<'a> {
    text: &'a [u8],
    next: usize,
}

impl<'a> Tokens<'a> {
    /// The next token; nothing at the end of the text.
    fn take(&mut self) -> Option<Token<'a>> {
        while self.next < self.text.len() && is_separator(self.text[self.next]) {
            self.next += 1;
        }
        let offset = self.next;
        while self.next < self.text.len() && !is_separator(self.text[self.next]) {
            self.next += 1;
        }
        if offset == self.next {
            return None;
        }
        Some(Token {
            offset,
            bytes: &self.text[offset..self.next],
        })
    }

    /// The next token, where the text must not stop: 3 at the text's length.
    fn demand(&mut self) -> Result<Token<'a>, Refusal> {
        self.take().ok_or(at(3, self.text.len()))
    }

    /// A comment goes from its token up to its LF.
    fn skip_comment(&mut self, comment: &Token) {
        self.next = comment.offset;
        while self.next < self.text.len() && self.text[self.next] != b'\n' {
            self.next += 1;
        }
    }
}

/// Separators are space, tab, CR, LF.
fn is_separator(byte: u8) -> bool {
    byte == b' ' || byte == b'\t' || byte == b'\r' || byte == b'\n'
}

/// A number: its sign and its size, held at 1,000 which is past every limit.
#[derive(Clone, Copy, Debug, PartialEq, Eq)]
struct Number {
    negative: bool,
    size: u32,
}

/// A number is 0, or an optional minus with a digit 1 to 9 and further digits.
fn number(bytes: &[u8]) -> Option<Number> {
    if bytes == b"0" {
        return Some(Number {
            negative: false,
            size: 0,
        });
    }
    let negative = bytes.first() == Some(&b'-');
    let digits = if negative { &bytes[1..] } else { bytes };
    if digits.is_empty() || digits[0] == b'0' {
        return None;
    }
    let mut size = 0;
    for &digit in digits {
        if !digit.is_ascii_digit() {
            return None;
        }
        size = u32::min(1_000, 10 * size + u32::from(digit - b'0'));
    }
    Some(Number { negative, size })
}

/// From a token, the number or the refusal comes back.
fn number_of(token: &Token) -> Result<Number, Refusal> {
    number(token.bytes).ok_or(at(3, token.offset))
}

/// The whole text: header, blocks, clauses, nothing more.
pub fn read_formula(text: &[u8]) -> Result<Formula, Refusal> {
    let mut tokens = Tokens { text, next: 0 };
    let mut formula = Formula::default();
    let count = read_header(&mut tokens, &mut formula)?;
    read_blocks(&mut tokens, &mut formula)?;
    for _ in 0..count {
        let clause = read_clause(&mut tokens, &formula)?;
        formula.clauses.push(clause);
    }
    match tokens.take() {
        Some(token) => Err(at(10, token.offset)),
        None => Ok(formula),
    }
}

/// Comments, then the header: p, cnf, V, clause count. The count comes back.
fn read_header(tokens: &mut Tokens, formula: &mut Formula) -> Result<u32, Refusal> {
    let mut token = tokens.demand()?;
    while token.bytes[0] == b'c' {
        tokens.skip_comment(&token);
        token = tokens.demand()?;
    }
    if token.bytes != b"p" {
        return Err(at(3, token.offset));
    }
    let mark = tokens.demand()?;
    if mark.bytes != b"cnf" {
        return Err(at(3, mark.offset));
    }
    formula.variables = read_header_number(tokens, MOST_VARIABLES)?;
    read_header_number(tokens, MOST_CLAUSES)
}

/// A header number: a negative one is 3, one past its limit is 4.
fn read_header_number(tokens: &mut Tokens, limit: u32) -> Result<u32, Refusal> {
    let token = tokens.demand()?;
    let number = number_of(&token)?;
    if number.negative {
        return Err(at(3, token.offset));
    }
    if number.size > limit {
        return Err(at(4, token.offset));
    }
    Ok(number.size)
}

/// All blocks: as long as a or e stands in a block's place.
fn read_blocks(tokens: &mut Tokens, formula: &mut Formula) -> Result<(), Refusal> {
    loop {
        let before = tokens.next;
        let Some(token) = tokens.take() else {
            return Ok(());
        };
        match token.bytes {
            b"a" => read_block(tokens, formula, true)?,
            b"e" => read_block(tokens, formula, false)?,
            _ => {
                tokens.next = before;
                return Ok(());
            }
        }
    }
}

/// One block behind its letter: at least one variable, 0.
fn read_block(tokens: &mut Tokens, formula: &mut Formula, universal: bool) -> Result<(), Refusal> {
    let mut empty = true;
    loop {
        let token = tokens.demand()?;
        let number = number_of(&token)?;
        if number.size == 0 {
            return if empty {
                Err(at(3, token.offset))
            } else {
                Ok(())
            };
        }
        if number.negative || number.size > formula.variables {
            return Err(at(5, token.offset));
        }
        if place_of(formula, number.size).is_some() {
            return Err(at(6, token.offset));
        }
        if universal && formula.universals.len() == MOST_UNIVERSALS {
            return Err(at(7, token.offset));
        }
        formula.prefix.push(Quantified {
            variable: number.size,
            universal,
        });
        if universal {
            formula.universals.push(number.size);
        }
        empty = false;
    }
}

/// One clause, ended by 0; a repeated literal counts once.
fn read_clause(tokens: &mut Tokens, formula: &Formula) -> Result<Clause, Refusal> {
    let mut clause = Clause::default();
    let mut begun = false;
    loop {
        let Some(token) = tokens.take() else {
            return Err(at(if begun { 3 } else { 10 }, tokens.text.len()));
        };
        let number = number_of(&token)?;
        if number.size == 0 {
            return Ok(clause);
        }
        if number.size > formula.variables {
            return Err(at(5, token.offset));
        }
        if place_of(formula, number.size).is_none() {
            return Err(at(8, token.offset));
        }
        if number.negative {
            clause.negated |= bit(number.size);
        } else {
            clause.plain |= bit(number.size);
        }
        if clause.plain & clause.negated != 0 {
            return Err(at(9, token.offset));
        }
        begun = true;
    }
}

/// The place of a variable in the prefix, counted from 0.
pub fn place_of(formula: &Formula, variable: u32) -> Option<usize> {
    formula
        .prefix
        .iter()
        .position(|quantified| quantified.variable == variable)
}

/// The set of the existential variables of the prefix.
pub fn existentials(formula: &Formula) -> u64 {
    let mut set = 0;
    for quantified in &formula.prefix {
        if !quantified.universal {
            set |= bit(quantified.variable);
        }
    }
    set
}

// -------------------------------------------------------------- proof file

/// Read the formula, then the proof line by line; its last clause must be empty.
pub fn check_proof(text: &[u8], proof: &[u8]) -> Result<(Formula, Vec<Line>), Refusal> {
    let formula = read_formula(text)?;
    let records = read_head(proof)?;
    let mut lines = Vec::new();
    for record in records.chunks_exact(8) {
        let line = derive(&formula, &lines, record)?;
        lines.push(line);
    }
    if lines[lines.len() - 1].clause != Clause::default() {
        return Err(at(32, lines.len()));
    }
    Ok((formula, lines))
}

/// The head: mark, version, line count. The bytes of the records come back.
fn read_head(proof: &[u8]) -> Result<&[u8], Refusal> {
    if proof.len() < 7 || &proof[..3] != b"MRP" || two_bytes(proof, 3) != 1 {
        return Err(without_place(11));
    }
    let count = two_bytes(proof, 5) as usize;
    if proof.len() != 7 + 8 * count {
        return Err(without_place(12));
    }
    if count < 1 || count > MOST_LINES {
        return Err(without_place(13));
    }
    Ok(&proof[7..])
}

/// A two-byte number, low byte first.
fn two_bytes(bytes: &[u8], first: usize) -> u32 {
    u32::from(bytes[first]) + 256 * u32::from(bytes[first + 1])
}

/// The line that a record of 8 bytes makes behind the given lines.
pub fn derive(formula: &Formula, lines: &[Line], record: &[u8]) -> Result<Line, Refusal> {
    match record[0] {
        1 => axiom(formula, lines.len() + 1, record),
        2 => resolution(formula, lines, record),
        _ => Err(at(21, lines.len() + 1)),
    }
}

/// Axiom at line i: the existential literals, and for each universal node i as root.
fn axiom(formula: &Formula, i: usize, record: &[u8]) -> Result<Line, Refusal> {
    if record[3..8] != [0; 5] {
        return Err(at(22, i));
    }
    let chosen = two_bytes(record, 1) as usize;
    if chosen < 1 || chosen > formula.clauses.len() {
        return Err(at(23, i));
    }
    let clause = formula.clauses[chosen - 1];
    let kept = existentials(formula);
    let mut line = Line {
        clause: Clause {
            plain: clause.plain & kept,
            negated: clause.negated & kept,
        },
        node: [Node::None; MOST_UNIVERSALS],
        root: [0; MOST_UNIVERSALS],
    };
    for (column, &universal) in formula.universals.iter().enumerate() {
        line.node[column] = axiom_leaf(clause, universal);
        line.root[column] = i as u32;
    }
    Ok(line)
}

/// Zero if the universal stands plain in the clause, one if negated, star if absent.
fn axiom_leaf(clause: Clause, universal: u32) -> Node {
    if has(clause.plain, universal) {
        Node::Zero
    } else if has(clause.negated, universal) {
        Node::One
    } else {
        Node::Star
    }
}

/// A resolution: its two parents, its pivot and its merge set.
struct Resolution {
    a: usize,
    b: usize,
    x: u32,
    merge_set: u32,
}

/// Resolution behind the given lines: its clause, then its maps by universal number.
fn resolution(formula: &Formula, lines: &[Line], record: &[u8]) -> Result<Line, Refusal> {
    let step = Resolution {
        a: two_bytes(record, 1) as usize,
        b: two_bytes(record, 3) as usize,
        x: u32::from(record[5]),
        merge_set: two_bytes(record, 6),
    };
    let mut line = Line {
        clause: resolved_clause(formula, lines, &step)?,
        node: [Node::None; MOST_UNIVERSALS],
        root: [0; MOST_UNIVERSALS],
    };
    for column in 0..formula.universals.len() {
        let (node, root) = resolved_map(formula, lines, &step, column)?;
        line.node[column] = node;
        line.root[column] = root;
    }
    Ok(line)
}

/// The clause of a resolution, or the first of 24 to 29 that is given.
fn resolved_clause(
    formula: &Formula,
    lines: &[Line],
    step: &Resolution,
) -> Result<Clause, Refusal> {
    let i = lines.len() + 1;
    if step.a < 1 || step.a >= i || step.b < 1 || step.b >= i {
        return Err(at(24, i));
    }
    let Some(place_of_x) = place_of(formula, step.x) else {
        return Err(at(25, i));
    };
    if formula.prefix[place_of_x].universal {
        return Err(at(25, i));
    }
    let clause_a = lines[step.a - 1].clause;
    let clause_b = lines[step.b - 1].clause;
    if !has(clause_a.plain, step.x) {
        return Err(at(26, i));
    }
    if !has(clause_b.negated, step.x) {
        return Err(at(27, i));
    }
    if step.merge_set >> formula.universals.len() != 0 {
        return Err(at(28, i));
    }
    let clause = resolvent(clause_a, clause_b, step.x);
    if clause.plain & clause.negated != 0 {
        return Err(at(29, i));
    }
    Ok(clause)
}

/// One universal's node and root after a resolution, by merge or by select.
fn resolved_map(
    formula: &Formula,
    lines: &[Line],
    step: &Resolution,
    column: usize,
) -> Result<(Node, u32), Refusal> {
    let i = lines.len() + 1;
    let universal = formula.universals[column];
    let root_a = lines[step.a - 1].root[column];
    let root_b = lines[step.b - 1].root[column];
    if step.merge_set >> column & 1 == 1 {
        if !left_of(formula, step.x, universal) {
            return Err(at_universal(30, i, universal));
        }
        let (x, a, b) = (step.x, root_a, root_b);
        return Ok((Node::Branch { x, a, b }, i as u32));
    }
    match select(lines, column, root_a, root_b) {
        Some(root) => Ok((Node::None, root)),
        None => Err(at_universal(31, i, universal)),
    }
}

/// Both clauses without x plain in the first and x negated in the second, joined.
pub fn resolvent(a: Clause, b: Clause, x: u32) -> Clause {
    Clause {
        plain: (a.plain & !bit(x)) | b.plain,
        negated: a.negated | (b.negated & !bit(x)),
    }
}

/// Left means earlier in the prefix.
pub fn left_of(formula: &Formula, x: u32, universal: u32) -> bool {
    place_of(formula, x) < place_of(formula, universal)
}

/// Select: the root that is taken, or nothing where select is not defined.
pub fn select(lines: &[Line], column: usize, root_a: u32, root_b: u32) -> Option<u32> {
    if node_at(lines, column, root_a) == Node::Star {
        Some(root_b)
    } else if node_at(lines, column, root_b) == Node::Star
        || isomorphic(lines, column, root_a, root_b)
    {
        Some(root_a)
    } else {
        None
    }
}

/// The node that a line made in a column.
pub fn node_at(lines: &[Line], column: usize, number: u32) -> Node {
    lines[number as usize - 1].node[column]
}

/// Isomorphic: a one-to-one pairing of all nodes of the two maps exists.
///
/// Each map's root is its only node that is no end of a branch, so the roots
/// are paired with each other; paired branches then force the pairs of their
/// ends. The pairs that are forced are followed from the roots, by which all
/// nodes of both maps are met: the pairing exists unless a node would get two
/// partners or two partners disagree.
pub fn isomorphic(lines: &[Line], column: usize, root_a: u32, root_b: u32) -> bool {
    let mut partner_in_b = [0u32; MOST_LINES + 1];
    let mut partner_in_a = [0u32; MOST_LINES + 1];
    let mut forced = vec![(root_a, root_b)];
    while let Some((p, q)) = forced.pop() {
        if partner_in_b[p as usize] == q && partner_in_a[q as usize] == p {
            continue;
        }
        if partner_in_b[p as usize] != 0 || partner_in_a[q as usize] != 0 {
            return false;
        }
        partner_in_b[p as usize] = q;
        partner_in_a[q as usize] = p;
        match (node_at(lines, column, p), node_at(lines, column, q)) {
            (Node::Branch { x, a, b }, Node::Branch { x: y, a: c, b: d }) => {
                if x != y {
                    return false;
                }
                forced.push((b, d));
                forced.push((a, c));
            }
            (leaf, other) => {
                if leaf != other {
                    return false;
                }
            }
        }
    }
    true
}

// --------------------------------------------------------------- semantics

/// Whether the formula is true by its prefix, tried out over all settings.
pub fn is_true(formula: &Formula) -> bool {
    true_from(formula, 0, 0)
}

/// Whether the rest of the prefix, from a place on, can be won under the settings.
fn true_from(formula: &Formula, place: usize, settings: u64) -> bool {
    let Some(quantified) = formula.prefix.get(place) else {
        return false_clause(formula, settings).is_none();
    };
    let zero = || true_from(formula, place + 1, settings);
    let one = || true_from(formula, place + 1, settings | bit(quantified.variable));
    if quantified.universal {
        zero() && one()
    } else {
        zero() || one()
    }
}

/// The first clause that the settings of all variables make false.
pub fn false_clause(formula: &Formula, settings: u64) -> Option<usize> {
    formula
        .clauses
        .iter()
        .position(|clause| clause.plain & settings == 0 && clause.negated & !settings == 0)
}

/// The existential variables left of a universal.
pub fn left_existentials(formula: &Formula, universal: u32) -> u64 {
    let mut set = 0;
    for quantified in &formula.prefix {
        if quantified.variable == universal {
            break;
        }
        if !quantified.universal {
            set |= bit(quantified.variable);
        }
    }
    set
}
