#!/usr/bin/env python3
"""Tries the comparison out: each mutant of second.rs stands in for the library,
and the comparison must find a difference.
Usage: mutants.py SRC BUILD [CASES [FIRST [LAST]]]"""
import os, subprocess, sys

src, build = os.path.abspath(sys.argv[1]), os.path.abspath(sys.argv[2])
cases = sys.argv[3] if len(sys.argv) > 3 else "300"
first = int(sys.argv[4]) if len(sys.argv) > 4 else 0
last_one = int(sys.argv[5]) if len(sys.argv) > 5 else 1_000
whole = open(f"{src}/second.rs").read()

# (text to be replaced, replacement, which occurrence from 0)
MUTANTS = [
    # order of 1 and 2, lengths
    ("if text.len() > TEXT_BYTES {", "if text.len() > TEXT_BYTES + 1 {", 0),
    ("if text.len() > TEXT_BYTES {", "if text.len() >= TEXT_BYTES {", 0),
    ("if text.len() > TEXT_BYTES {", "if text.len() > TEXT_BYTES + 1 {", 1),
    ("|| roots.len() < MAP_WORDS", "|| roots.len() + 1 < MAP_WORDS", 0),
    ("|| nodes.len() < MAP_WORDS\n", "|| nodes.len() < MAP_WORDS - 1\n", 0),
    ("|| lines.len() < LINE_WORDS", "|| lines.len() < LINE_WORDS - 1", 0),
    ("if prefix.len() < PREFIX_WORDS || clauses.len() < CLAUSE_WORDS {", "if text.len() > TEXT_BYTES { return refused(without_place(1)); } if prefix.len() < PREFIX_WORDS || clauses.len() < CLAUSE_WORDS {", 0),
    ("prefix[..PREFIX_WORDS].fill(0);", "prefix.fill(0);", 0),
    ("prefix[..PREFIX_WORDS].fill(0);", "prefix.fill(0);", 1),
    ("clauses[..CLAUSE_WORDS].fill(0);", "clauses[..CLAUSE_WORDS - 1].fill(0);", 0),
    ("roots[..MAP_WORDS].fill(0);", "roots[..MAP_WORDS - 1].fill(0);", 0),
    ("nodes[..MAP_WORDS].fill(0);", "nodes.fill(0);", 0),
    ("lines[..LINE_WORDS].fill(0);", "", 0),
    # playing
    ("column <= MOST_UNIVERSALS as u32;", "column <= MOST_UNIVERSALS as u32 + 1;", 0),
    ("let root_fits = root >= 1 && root <= MOST_LINES as u32;", "let root_fits = root >= 1 && root < MOST_LINES as u32;", 0),
    ("if a >= here || b >= here {", "if a > here || b >= here {", 0),
    ("if a >= here || b >= here {", "if (if has(settings, x) { b } else { a }) >= here {", 0),
    ("here = if has(settings, x) { b } else { a };", "here = if has(settings, x) { a } else { b };", 0),
    ("if word < first || word >= end {", "if word < first || word >= end + (1 << 20) {", 0),
    ("if word < first || word >= end {", "if word & first == 0 {", 0),
    ("if !column_fits || !root_fits || nodes.len() < MAP_WORDS {", "if !column_fits || !root_fits || nodes.len() < MAP_WORDS - 1 {", 0),
    # text
    ("byte == b' ' || byte == b'\\t' || byte == b'\\r' || byte == b'\\n'", "byte.is_ascii_whitespace()", 0),
    ("byte == b' ' || byte == b'\\t' || byte == b'\\r' || byte == b'\\n'", "byte == b' ' || byte == b'\\t' || byte == b'\\n'", 0),
    ("byte == b' ' || byte == b'\\t' || byte == b'\\r' || byte == b'\\n'", "byte == b' ' || byte == b'\\t' || byte == b'\\r' || byte == b'\\n' || byte == 0", 0),
    ("self.text[self.next] != b'\\n' {", "self.text[self.next] != b'\\n' && self.text[self.next] != b'\\r' {", 0),
    ("while token.bytes[0] == b'c' {", "while token.bytes == b\"c\" {", 0),
    ("while token.bytes[0] == b'c' {", "if token.bytes[0] == b'c' {", 0),
    ("if digits.is_empty() || digits[0] == b'0' {", "if digits.is_empty() || (digits[0] == b'0' && digits.len() > 1) {", 0),
    ("if digits.is_empty() || digits[0] == b'0' {", "if digits.is_empty() || (digits[0] == b'0' && negative) {", 0),
    ("size = u32::min(1_000, 10 * size + u32::from(digit - b'0'));", "size = 10u32.wrapping_mul(size).wrapping_add(u32::from(digit - b'0'));", 0),
    ("size = u32::min(1_000, 10 * size + u32::from(digit - b'0'));", "size = (10 * size + u32::from(digit - b'0')) % 65_536;", 0),
    ("if number.negative {\n        return Err(at(3, token.offset));", "if number.negative && number.size <= limit {\n        return Err(at(3, token.offset));", 0),
    ("if number.negative {\n        return Err(at(3, token.offset));", "if number.negative {\n        return Err(at(4, token.offset));", 0),
    ("if number.size > limit {", "if number.size >= limit {", 0),
    ("pub const MOST_CLAUSES: u32 = 256;", "pub const MOST_CLAUSES: u32 = 255;", 0),
    ("return if empty {\n                Err(at(3, token.offset))\n            } else {\n                Ok(())\n            };", "return Ok(());", 0),
    ("if number.negative || number.size > formula.variables {", "if number.size > formula.variables {", 0),
    ("if number.negative || number.size > formula.variables {", "if number.negative { return Err(at(3, token.offset)); } if number.size > formula.variables {", 0),
    ("if universal && formula.universals.len() == MOST_UNIVERSALS {", "if universal && formula.universals.len() == MOST_UNIVERSALS - 1 {", 0),
    ("if place_of(formula, number.size).is_some() {\n            return Err(at(6, token.offset));\n        }\n        if universal && formula.universals.len() == MOST_UNIVERSALS {\n            return Err(at(7, token.offset));\n        }", "if universal && formula.universals.len() == MOST_UNIVERSALS {\n            return Err(at(7, token.offset));\n        }\n        if place_of(formula, number.size).is_some() {\n            return Err(at(6, token.offset));\n        }", 0),
    ("return Err(at(if begun { 3 } else { 10 }, tokens.text.len()));", "return Err(at(10, tokens.text.len()));", 0),
    ("return Err(at(if begun { 3 } else { 10 }, tokens.text.len()));", "return Err(at(3, tokens.text.len()));", 0),
    ("return Err(at(if begun { 3 } else { 10 }, tokens.text.len()));", "return Err(at(if begun || formula.clauses.is_empty() { 3 } else { 10 }, tokens.text.len()));", 0),
    ("return Err(at(if begun { 3 } else { 10 }, tokens.text.len()));", "return Err(at(if clause != Clause::default() { 3 } else { 10 }, tokens.text.len().max(1) - 1));", 0),
    ("Some(token) => Err(at(10, token.offset)),", "Some(token) => Err(at(if number(token.bytes).is_some() { 10 } else { 3 }, token.offset)),", 0),
    ("Some(token) => Err(at(10, token.offset)),", "Some(token) => Err(at(if count == 0 { 3 } else { 10 }, token.offset)),", 0),
    ("Some(token) => Err(at(10, token.offset)),", "Some(token) => Err(at(10, token.offset + 1)),", 0),
    ("read_blocks(&mut tokens, &mut formula)?;", "if count > 0 { read_blocks(&mut tokens, &mut formula)?; }", 0),
    ("if number.size > formula.variables {\n            return Err(at(5", "if number.size > 64 {\n            return Err(at(5", 0),
    ("return Err(at(8, token.offset));", "{}", 0),
    ("return Err(at(9, token.offset));", "{}", 0),
    ("if clause.plain & clause.negated != 0 {\n            return Err(at(9", "if clause.plain & clause.negated & existentials(formula) != 0 {\n            return Err(at(9", 0),
    # head
    ("two_bytes(proof, 3) != 1", "proof[3] != 1", 0),
    ("if proof.len() != 7 + 8 * count {", "if proof.len() < 7 + 8 * count {", 0),
    ("if proof.len() != 7 + 8 * count {\n        return Err(without_place(12));\n    }\n    if count < 1 || count > MOST_LINES {\n        return Err(without_place(13));\n    }", "if count < 1 || count > MOST_LINES {\n        return Err(without_place(13));\n    }\n    if proof.len() != 7 + 8 * count {\n        return Err(without_place(12));\n    }", 0),
    ("if count < 1 || count > MOST_LINES {", "if count < 1 || count > MOST_LINES + 1 {", 0),
    ("if count < 1 || count > MOST_LINES {", "if count < 1 || count > MOST_LINES - 1 {", 0),
    # lines
    ("if lines[lines.len() - 1].clause != Clause::default() {", "if lines.iter().all(|l| l.clause != Clause::default()) {", 0),
    ("return Err(at(32, lines.len()));", "return Err(at(32, 0));", 0),
    ("if record[3..8] != [0; 5] {", "if record[3..7] != [0; 4] {", 0),
    ("if record[3..8] != [0; 5] {\n        return Err(at(22, i));\n    }\n    let chosen = two_bytes(record, 1) as usize;\n    if chosen < 1 || chosen > formula.clauses.len() {\n        return Err(at(23, i));\n    }", "let chosen = two_bytes(record, 1) as usize;\n    if chosen < 1 || chosen > formula.clauses.len() {\n        return Err(at(23, i));\n    }\n    if record[3..8] != [0; 5] {\n        return Err(at(22, i));\n    }", 0),
    ("let chosen = two_bytes(record, 1) as usize;", "let chosen = record[1] as usize;", 0),
    ("plain: clause.plain & kept,\n", "plain: clause.plain,\n", 0),
    ("if has(clause.plain, universal) {\n        Node::Zero\n    } else if has(clause.negated, universal) {\n        Node::One", "if has(clause.plain, universal) {\n        Node::One\n    } else if has(clause.negated, universal) {\n        Node::Zero", 0),
    ("step.b < 1 || step.b >= i {", "step.b < 1 || step.b > i {", 0),
    ("if formula.prefix[place_of_x].universal {", "if false {", 0),
    ("x: u32::from(record[5]),", "x: u32::from(record[5] & 127),", 0),
    ("x: u32::from(record[5]),", "x: u32::from(record[5]) % 65,", 0),
    ("return Err(at(26, i));", "return Err(at(27, i));", 0),
    ("if !has(clause_b.negated, step.x) {", "if !has(clause_b.negated | clause_b.plain, step.x) {", 0),
    ("if step.merge_set >> formula.universals.len() != 0 {", "if step.merge_set >> (formula.universals.len() + 1) != 0 {", 0),
    ("if clause.plain & clause.negated != 0 {\n        return Err(at(29", "if false {\n        return Err(at(29", 0),
    ("if clause.plain & clause.negated != 0 {\n        return Err(at(29, i));\n    }", "", 0),
    ("at_universal(30, i, universal)", "at_universal(30, i, column as u32 + 1)", 0),
    ("at_universal(31, i, universal)", "at_universal(31, i, column as u32 + 1)", 0),
    ("let (x, a, b) = (step.x, root_a, root_b);", "let (x, a, b) = (step.x, root_b, root_a);", 0),
    ("let (x, a, b) = (step.x, root_a, root_b);", "let (x, a, b) = (step.x, step.a as u32, step.b as u32);", 0),
    ("plain: (a.plain & !bit(x)) | b.plain,", "plain: a.plain & !bit(x),", 0),
    ("place_of(formula, x) < place_of(formula, universal)", "x < universal", 0),
    ("place_of(formula, x) < place_of(formula, universal)", "true", 0),
    # select and isomorphism
    ("if node_at(lines, column, root_a) == Node::Star {\n        Some(root_b)", "if node_at(lines, column, root_a) == Node::Star && node_at(lines, column, root_b) != Node::Star {\n        Some(root_b)", 0),
    ("Some(root_b)", "Some(root_a)", 0),
    ("        Some(root_a)\n    } else {\n        None", "        Some(root_b)\n    } else {\n        None", 0),
    ("|| isomorphic(lines, column, root_a, root_b)", "|| root_a == root_b", 0),
    ("|| isomorphic(lines, column, root_a, root_b)", "|| (root_a == root_b || node_at(lines, column, root_a) == node_at(lines, column, root_b))", 0),
    ("if partner_in_b[p as usize] != 0 || partner_in_a[q as usize] != 0 {\n            return false;", "if partner_in_b[p as usize] != 0 {\n            return false;", 0),
    ("if partner_in_b[p as usize] != 0 || partner_in_a[q as usize] != 0 {\n            return false;", "if partner_in_a[q as usize] != 0 {\n            return false;", 0),
    ("if partner_in_b[p as usize] != 0 || partner_in_a[q as usize] != 0 {\n            return false;", "if partner_in_b[p as usize] != 0 || partner_in_a[q as usize] != 0 {\n            continue;", 0),
    ("if x != y {\n                    return false;", "if false {\n                    return false;", 0),
    ("forced.push((b, d));", "", 0),
    ("forced.push((a, c));", "", 0),
    ("forced.push((b, d));\n                forced.push((a, c));", "forced.push((b, c));\n                forced.push((a, d));", 0),
    ("(leaf, other) => {\n                if leaf != other {", "(leaf, other) => {\n                if matches!(leaf, Node::Branch { .. }) != matches!(other, Node::Branch { .. }) {", 0),
    ("if node_at(lines, column, root_a) == Node::Star {", "if all_stars(lines, column, root_a) {", 0),
    ("} else if node_at(lines, column, root_b) == Node::Star\n", "} else if all_stars(lines, column, root_b)\n", 0),
    # replies and tables
    ("lines,\n        ..Reply::default()", "lines: 0,\n        ..Reply::default()", 0),
    ("universals: formula.universals.len() as u32,", "universals: 0,", 0),
    ("quantified.variable + if quantified.universal { 256 } else { 0 }", "quantified.variable + if quantified.universal { 0 } else { 256 }", 0),
    ("clauses[2 * c + 1] = clause.negated;", "clauses[2 * c + 1] = clause.negated & existentials(formula);", 0),
]

EXTRA = '''
fn all_stars(lines: &[Line], column: usize, root: u32) -> bool {
    match node_at(lines, column, root) {
        Node::Star => true,
        Node::Branch { a, b, .. } => node_at(lines, column, a) == Node::Star && node_at(lines, column, b) == Node::Star,
        _ => false,
    }
}
'''

def occurrence(text, old, n):
    place = -1
    for _ in range(n + 1):
        place = text.find(old, place + 1)
        if place < 0:
            return -1
    return place

folder = f"{build}/mutants"
os.makedirs(folder, exist_ok=True)
rustc = ["rustc", "--edition", "2021", "-O", "-A", "warnings"]
open(f"{folder}/second.rs", "w").write(whole)
open(f"{folder}/mock_library.rs", "w").write(open(f"{src}/mock_library.rs").read())
library = ["--crate-type", "cdylib", "-C", "panic=abort", "-o", f"{folder}/libmalintok.so", f"{folder}/mock_library.rs"]
subprocess.run(rustc + library, check=True)
subprocess.run(rustc + ["-L", folder, "-l", "dylib=malintok", "-o", f"{folder}/compare", f"{src}/compare.rs"], check=True)
environment = dict(os.environ, LD_LIBRARY_PATH=folder)
alive = []
for k, (old, new, n) in enumerate(MUTANTS):
    if k < first or k > last_one:
        continue
    place = occurrence(whole, old, n)
    if place < 0:
        print("mutant", k, "has no place:", old)
        alive.append(k)
        continue
    mutant = whole[:place] + new + whole[place + len(old):] + EXTRA
    open(f"{folder}/second.rs", "w").write(mutant)
    made = subprocess.run(rustc + library, capture_output=True, text=True)
    if made.returncode != 0:
        print("mutant", k, "does not compile:", made.stderr[:600])
        alive.append(k)
        continue
    ran = subprocess.run(["nice", "-n", "5", "timeout", "120", f"{folder}/compare", "1", cases], capture_output=True, text=True, cwd=folder, env=environment)
    last = ran.stdout.strip().split("\n")[-1] if ran.stdout else ""
    if ran.returncode == 0:
        print("mutant", k, "lives:", old.strip()[:70], "->", new.strip()[:70])
        alive.append(k)
    else:
        print("mutant", k, "found: status", ran.returncode, last[:60], flush=True)
print("mutants:", len(MUTANTS), "not found:", alive)
