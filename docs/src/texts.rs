//! Formula texts written by hand, sentence by sentence, each with the number
//! and the place that the scope page gives it.

#![allow(dead_code)]

/// A text with its number and its place; success is 0, 0.
pub struct Case {
    pub text: Vec<u8>,
    pub number: u32,
    pub place: u32,
}

/// All hand-written texts.
pub fn all() -> Vec<Case> {
    let mut cases = Vec::new();
    add_plain(&mut cases);
    add_bytes(&mut cases);
    add_limits(&mut cases);
    add_long(&mut cases);
    cases
}

/// Whole small texts, whose every cut is worth reading.
pub fn to_cut() -> Vec<Vec<u8>> {
    vec![
        crate::families::G_TEXT.to_vec(),
        b"c one\r\nc two\np cnf 12 3\r\ne 1 2 0\r\na 12 0\ne 3 0\r\n1 -12 0\n0\r\n-3 2 1 1 0\r\n"
            .to_vec(),
        b"p cnf 2 0 a 1 0 a 2 0 ".to_vec(),
        b"p\tcnf\t0\t2\t0\t0".to_vec(),
        b" c\n\nc\n p cnf 64 1 e 64 63 0 -64 -63 -64 0".to_vec(),
    ]
}

/// Add a text given as a string.
fn add(cases: &mut Vec<Case>, text: &str, number: u32, place: u32) {
    cases.push(Case {
        text: text.as_bytes().to_vec(),
        number,
        place,
    });
}

/// Add a text that is refused at its own length.
fn add_at_end(cases: &mut Vec<Case>, text: &str, number: u32) {
    add(cases, text, number, text.len() as u32);
}

/// Header, comments, blocks, clauses, numbers.
fn add_plain(cases: &mut Vec<Case>) {
    // Success.
    for text in [
        "p cnf 3 3 e 1 0 a 2 0 e 3 0 1 2 3 0 -1 -2 3 0 -3 0",
        "p cnf 0 0",
        "p cnf 0 0 ",
        "\n\n p cnf 0 0\n",
        "p cnf 0 1 0",
        "p cnf 0 2 0 0",
        "p\ncnf\n0\n1\n0\n",
        "p cnf 64 0",
        "p cnf 2 0 e 1 0 e 2 0",
        "p cnf 2 0 a 1 0 a 2 0",
        "p cnf 2 0 a 2 1 0",
        "p cnf 3 1 e 1 0 e 2 0 a 3 0 1 2 3 0",
        "p cnf 3 1 e 3 0 a 1 0 3 0",
        "p cnf 1 1 e 1 0 1 1 1 0",
        "p cnf 1 1 e 1 0 -1 -1 0",
        "p cnf 1 2 e 1 0 1 0 -1 0",
        "c\np cnf 0 0",
        "c p cnf 9 9\np cnf 0 0",
        "cnf\np cnf 0 0",
        "comment\rp cnf 9 9\np cnf 0 0",
        "c\n\tc again\n \r\n c\np cnf 0 0",
        "c\r\np cnf 0 0\r\n",
        "p cnf 2 1 e 1 2 0\t1\t2\t0",
        "p\rcnf\r2\r1\re\r1\r2\r0\r1\r2\r0\r",
    ] {
        add(cases, text, 0, 0);
    }
    add(cases, &format!("p cnf 64 256 {}", "0 ".repeat(256)), 0, 0);

    // Before or inside the header.
    for text in [
        "",
        " ",
        "\n",
        "\r\n\t ",
        "c",
        "c comment",
        "c comment\n",
        "c\nc",
        "c p cnf 0 0",
    ] {
        add_at_end(cases, text, 3);
    }
    for text in [
        "p",
        "p ",
        "p cnf",
        "p cnf\n",
        "p cnf 0",
        "p cnf 0 ",
        "p cnf 64\t",
    ] {
        add_at_end(cases, text, 3);
    }
    add(cases, "pcnf 0 0", 3, 0);
    add(cases, "P cnf 0 0", 3, 0);
    add(cases, " x", 3, 1);
    add(cases, "1", 3, 0);
    add(cases, "e 1 0", 3, 0);
    add(cases, "C\np cnf 0 0", 3, 0);
    add(cases, "-c\np cnf 0 0", 3, 0);
    add(cases, "p p cnf 0 0", 3, 2);
    add(cases, "p CNF 0 0", 3, 2);
    add(cases, "p cn 0 0", 3, 2);
    add(cases, "p cnff 0 0", 3, 2);
    add(cases, "p c comment\ncnf 0 0", 3, 2);
    add(cases, "p\nc comment\ncnf 0 0", 3, 2);
    add(cases, "p cnf c\n0 0", 3, 6);
    add(cases, "p cnf 0\nc x\n0", 3, 8);
    add(cases, "p cnf a 0", 3, 6);
    add(cases, "p cnf 0 e", 3, 8);

    // Header numbers.
    for number in [
        "-0",
        "00",
        "01",
        "-1",
        "-64",
        "-65",
        "-999999999999999999999",
        "+1",
        "1.0",
        "0x1",
        "-",
        "--1",
        "1-",
        "1a",
        "a1",
        "-01",
        "000",
        "65x",
    ] {
        add(cases, &format!("p cnf {} 0", number), 3, 6);
        add(cases, &format!("p cnf 1 {} e 1 0", number), 3, 8);
    }
    for number in [
        "65",
        "66",
        "99",
        "100",
        "255",
        "256",
        "320",
        "640",
        "4294967296",
        "4294967297",
        "18446744073709551616",
        "340282366920938463463374607431768211457",
    ] {
        add(cases, &format!("p cnf {} 0", number), 4, 6);
        add(cases, &format!("p cnf {} x", number), 4, 6);
        add(cases, &format!("p cnf {}", number), 4, 6);
    }
    for number in [
        "257",
        "258",
        "300",
        "512",
        "999",
        "1000",
        "65536",
        "65792",
        "4294967296",
        "4294967297",
        "18446744073709551616",
    ] {
        add(cases, &format!("p cnf 1 {} e 1 0", number), 4, 8);
        add(cases, &format!("p cnf 1 {}", number), 4, 8);
    }
    add(cases, "p cnf 65 257", 4, 6);
    add(cases, "p cnf 65 -1", 4, 6);
    add(cases, "p cnf -1 257", 3, 6);

    // Blocks.
    for text in [
        "p cnf 1 1 e",
        "p cnf 1 1 a ",
        "p cnf 1 1 e 1",
        "p cnf 1 1 a 1 ",
        "p cnf 1 0 e",
        "p cnf 1 0 e 1",
        "p cnf 1 0 e 1 0 a",
        "p cnf 2 0 a 1 0 a 2\n",
    ] {
        add_at_end(cases, text, 3);
    }
    add(cases, "p cnf 1 1 e 0", 3, 12);
    add(cases, "p cnf 1 0 a 0", 3, 12);
    add(cases, "p cnf 0 0 a 0", 3, 12);
    add(cases, "p cnf 1 0 e 1 0 e 0", 3, 18);
    add(cases, "p cnf 1 0 e 1 a", 3, 14);
    add(cases, "p cnf 1 0 e e 1 0", 3, 12);
    add(cases, "p cnf 1 0 e x", 3, 12);
    add(cases, "p cnf 1 0 e 1 c", 3, 14);
    add(cases, "p cnf 1 0 e -0", 3, 12);
    add(cases, "p cnf 1 0 e 1 -0", 3, 14);
    add(cases, "p cnf 1 0 e 00", 3, 12);
    add(cases, "p cnf 1 0 e 01 0", 3, 12);
    add(cases, "p cnf 1 0 e +1 0", 3, 12);
    add(cases, "p cnf 1 1 e1 0 1 0", 3, 10);
    add(cases, "p cnf 1 1 ee 1 0 1 0", 3, 10);
    add(cases, "p cnf 1 1 A 1 0 1 0", 3, 10);
    add(cases, "p cnf 1 1 E 1 0 1 0", 3, 10);
    for number in [
        "2",
        "-1",
        "-2",
        "65",
        "-65",
        "256",
        "257",
        "4294967297",
        "-4294967295",
        "18446744073709551617",
        "-18446744073709551617",
    ] {
        add(cases, &format!("p cnf 1 0 e {} 0", number), 5, 12);
        add(cases, &format!("p cnf 1 1 a {} 0", number), 5, 12);
        add(cases, &format!("p cnf 1 1 a 1 {} 0", number), 5, 14);
        add(cases, &format!("p cnf 0 0 a {}", number), 5, 12);
    }
    add(cases, "p cnf 0 0 e 1 0", 5, 12);
    add(cases, "p cnf 1 0 e 1 1 0", 6, 14);
    add(cases, "p cnf 1 0 a 1 1 0", 6, 14);
    add(cases, "p cnf 1 0 e 1 0 a 1 0", 6, 18);
    add(cases, "p cnf 2 1 e 2 1 0 a 1 0", 6, 20);
    add(cases, "p cnf 2 1 a 2 1 0 e 1 0", 6, 20);
    add(cases, "p cnf 2 1 a 2 1 0 e 2 0", 6, 20);

    // Clauses.
    for text in [
        "p cnf 1 1 e 1 0 1",
        "p cnf 1 1 e 1 0 1 ",
        "p cnf 1 2 e 1 0 0 -1",
        "p cnf 1 1 e 1 0 1 1\n",
    ] {
        add_at_end(cases, text, 3);
    }
    for text in [
        "p cnf 1 1",
        "p cnf 1 1 ",
        "p cnf 1 1\n\n",
        "p cnf 1 1 e 1 0",
        "p cnf 1 2 e 1 0 1 0",
        "p cnf 1 2 e 1 0 0",
        "p cnf 0 256",
        "p cnf 0 2 0\r\n",
    ] {
        add_at_end(cases, text, 10);
    }
    for (token, number) in [
        ("x", 3),
        ("-0", 3),
        ("00", 3),
        ("01", 3),
        ("-01", 3),
        ("+1", 3),
        ("-", 3),
        ("1-", 3),
        ("p", 3),
        ("c", 3),
        ("cnf", 3),
        ("a1", 3),
        ("1,", 3),
        ("%", 3),
    ] {
        add(cases, &format!("p cnf 1 1 e 1 0 {}", token), number, 16);
        add(cases, &format!("p cnf 1 1 e 1 0 {} 0", token), number, 16);
        add(cases, &format!("p cnf 1 1 e 1 0 1 {}", token), number, 18);
        add(cases, &format!("p cnf 1 2 e 1 0 0 {}", token), number, 18);
    }
    for letter in ["a", "e"] {
        add(cases, &format!("p cnf 1 1 e 1 0 1 {}", letter), 3, 18);
        add(cases, &format!("p cnf 1 2 e 1 0 1 0 {} 1 0", letter), 3, 20);
        add(cases, &format!("p cnf 1 2 0 {} 1 0 0", letter), 3, 12);
    }
    for number in [
        "2",
        "-2",
        "64",
        "65",
        "-65",
        "257",
        "4294967297",
        "-4294967297",
        "18446744073709551617",
        "-18446744073709551617",
    ] {
        add(cases, &format!("p cnf 1 1 e 1 0 {} 0", number), 5, 16);
        add(cases, &format!("p cnf 1 1 e 1 0 1 {} 0", number), 5, 18);
        add(cases, &format!("p cnf 1 1 {} 0", number), 5, 10);
    }
    add(cases, "p cnf 0 1 1 0", 5, 10);
    add(cases, "p cnf 1 1 1 0", 8, 10);
    add(cases, "p cnf 1 1 -1 0", 8, 10);
    add(cases, "p cnf 3 1 e 1 3 0 2 0", 8, 18);
    add(cases, "p cnf 3 2 e 1 3 0 1 0 -2 0", 8, 22);
    add(cases, "p cnf 2 1 e 1 0 1 -1 0", 9, 18);
    add(cases, "p cnf 2 1 e 1 0 -1 1 0", 9, 19);
    add(cases, "p cnf 2 1 a 1 0 -1 1 0", 9, 19);
    add(cases, "p cnf 2 1 e 1 2 0 1 2 -1 -2 0", 9, 22);
    add(cases, "p cnf 2 1 e 1 2 0 1 2 -2 -1", 9, 22);
    add(cases, "p cnf 1 1 e 1 0 1 -1", 9, 18);

    // After the last clause, and with count 0 in a block's place.
    for token in [
        "0",
        "1",
        "-1",
        "x",
        "-0",
        "00",
        "a",
        "e",
        "c",
        "p",
        "cnf",
        "99999999999999999999",
        "-",
        "a1",
    ] {
        add(cases, &format!("p cnf 1 1 e 1 0 1 0 {}", token), 10, 20);
        add(cases, &format!("p cnf 1 1 e 1 0 0 {} 1 0", token), 10, 18);
        if token != "a" && token != "e" {
            add(cases, &format!("p cnf 1 0 {}", token), 10, 10);
            add(cases, &format!("p cnf 1 0 e 1 0 {}", token), 10, 16);
            add(cases, &format!("p cnf 0 0 {} 1 0", token), 10, 10);
        }
    }
    add(cases, "p cnf 1 1 e 1 0 1 0\nc the end\n", 10, 20);
    add(cases, "p cnf 1 0 ae 1 0", 10, 10);
    add(cases, "p cnf 1 0 e1 0", 10, 10);
}

/// Every byte in every place: NUL, high bytes and other blanks are no separators.
fn add_bytes(cases: &mut Vec<Case>) {
    for byte in (0..=255u8).filter(|byte| !b" \t\r\n".contains(byte)) {
        let mut put = |before: &[u8], after: &[u8], number: u32, place: u32| {
            let text = [before, &[byte], after].concat();
            cases.push(Case {
                text,
                number,
                place,
            });
        };
        // In front: a c makes the text one comment, a p makes the second p no cnf.
        match byte {
            b'c' => put(b"", b" p cnf 1 1 e 1 0 1 0", 3, 21),
            b'p' => put(b"", b" p cnf 1 1 e 1 0 1 0", 3, 2),
            _ => put(b"", b" p cnf 1 1 e 1 0 1 0", 3, 0),
        }
        // As part of a comment, of cnf, of a header number.
        put(b"c", b"\np cnf 0 0", 0, 0);
        put(b"p cnf", b" 0 0", 3, 2);
        match byte {
            b'0'..=b'9' => put(b"p cnf 1 1", b" e 1 0", 10, 16),
            _ => put(b"p cnf 1 1", b" e 1 0", 3, 8),
        }
        // As a block's letter, as a block's variable.
        match byte {
            b'a' | b'e' => put(b"p cnf 1 0 ", b" 1 0", 0, 0),
            _ => put(b"p cnf 1 0 ", b" 1 0", 10, 10),
        }
        match byte {
            b'0' => put(b"p cnf 1 0 e ", b" 0", 3, 12),
            b'1' => put(b"p cnf 1 0 e ", b" 0", 0, 0),
            b'2'..=b'9' => put(b"p cnf 1 0 e ", b" 0", 5, 12),
            _ => put(b"p cnf 1 0 e ", b" 0", 3, 12),
        }
        // Inside a clause, after the last clause.
        match byte {
            b'0' => put(b"p cnf 1 1 e 1 0 1 ", b" 0", 10, 20),
            b'1' => put(b"p cnf 1 1 e 1 0 1 ", b" 0", 0, 0),
            b'2'..=b'9' => put(b"p cnf 1 1 e 1 0 1 ", b" 0", 5, 18),
            _ => put(b"p cnf 1 1 e 1 0 1 ", b" 0", 3, 18),
        }
        put(b"p cnf 1 1 e 1 0 1 0 ", b"", 10, 20);
        put(b"p cnf 1 1 e 1 0 1 0\n", b"\n", 10, 20);
    }
}

/// V of 64 and 65, 16 and 17 universals, 256 and 257 clauses.
fn add_limits(cases: &mut Vec<Case>) {
    for variables in [1usize, 2, 15, 16, 17, 31, 32, 33, 63, 64, 65] {
        let all: Vec<String> = (1..=variables).map(|v| v.to_string()).collect();
        let all = all.join(" ");
        let (number, place) = if variables == 65 { (4, 6) } else { (0, 0) };
        add(
            cases,
            &format!("p cnf {} 1 e {} 0 {} 0", variables, all, all),
            number,
            place,
        );
        let negated = all.replace(' ', " -");
        add(
            cases,
            &format!("p cnf {} 1 e {} 0 -{} 0", variables, all, negated),
            number,
            place,
        );
        add(
            cases,
            &format!("p cnf {} 0 e {} 0", variables, all),
            number,
            place,
        );
    }
    for universals in [1usize, 15, 16, 17, 18, 64] {
        let all: Vec<String> = (1..=universals).map(|v| v.to_string()).collect();
        let one_block = format!("p cnf 64 0 a {} 0", all.join(" "));
        let blocks = format!("p cnf 64 0 a {} 0", all.join(" 0 a "));
        for text in [one_block, blocks] {
            if universals <= 16 {
                add(cases, &text, 0, 0);
            } else {
                let place = text.find(" 17 ").unwrap() as u32 + 1;
                add(cases, &text, 7, place);
            }
        }
    }
    // At a 17th universal: not in 1..V, or twice, are the smaller numbers.
    let sixteen = "p cnf 17 0 a 1 2 3 4 5 6 7 8 9 10 11 12 13 14 15 16";
    let place = sixteen.len() as u32 + 1;
    add(cases, &format!("{} 18 0", sixteen), 5, place);
    add(cases, &format!("{} -17 0", sixteen), 5, place);
    add(cases, &format!("{} 16 0", sixteen), 6, place);
    add(cases, &format!("{} 17 0", sixteen), 7, place);
    add(cases, &format!("{} 0 e 17 0", sixteen), 0, 0);
    add(cases, &format!("{} 0 a 17 0", sixteen), 7, place + 4);
    add(cases, &format!("{} 0 a 0", sixteen), 3, place + 4);
    add(cases, &format!("{} x 0", sixteen), 3, place);
    for clauses in [1usize, 255, 256] {
        add(
            cases,
            &format!("p cnf 1 {} e 1 0 {}", clauses, "1 0 ".repeat(clauses)),
            0,
            0,
        );
        let fewer = format!("p cnf 1 {} e 1 0 {}", clauses, "-1 0\n".repeat(clauses - 1));
        add_at_end(cases, &fewer, 10);
        let head = format!("p cnf 1 {} e 1 0 ", clauses);
        let place = head.len() + 4 * clauses;
        add(
            cases,
            &format!("{}{}", head, "1 0 ".repeat(clauses + 1)),
            10,
            place as u32,
        );
    }
    add(
        cases,
        &format!("p cnf 1 257 e 1 0 {}", "1 0 ".repeat(257)),
        4,
        8,
    );
}

/// A text filled up with a byte, in front or behind, to a length.
fn filled(text: &str, byte: u8, length: usize, in_front: bool) -> Vec<u8> {
    let filling = vec![byte; length - text.len()];
    if in_front {
        [&filling[..], text.as_bytes()].concat()
    } else {
        [text.as_bytes(), &filling[..]].concat()
    }
}

/// Texts of 65,536 and 65,537 bytes, and numbers of many digits.
fn add_long(cases: &mut Vec<Case>) {
    let game = "p cnf 3 3 e 1 0 a 2 0 e 3 0 1 2 3 0 -1 -2 3 0 -3 0";
    for in_front in [true, false] {
        for byte in [b' ', b'\n'] {
            let text = filled(game, byte, 65_535, in_front);
            cases.push(Case {
                text,
                number: 0,
                place: 0,
            });
            let text = filled(game, byte, 65_536, in_front);
            cases.push(Case {
                text,
                number: 0,
                place: 0,
            });
            let text = filled(game, byte, 65_537, in_front);
            cases.push(Case {
                text,
                number: 1,
                place: 0,
            });
        }
    }
    let comment = format!("c{}\np cnf 0 0", "x".repeat(65_536 - 11));
    add(cases, &comment, 0, 0);
    add(cases, &format!("{}\n", comment), 1, 0);
    add(cases, &"c".repeat(65_536), 3, 65_536);
    add(cases, &"p".repeat(65_536), 3, 0);
    add(cases, &" ".repeat(65_536), 3, 65_536);
    add(cases, &" ".repeat(65_537), 1, 0);
    cases.push(Case {
        text: filled("p cnf 0 1", b' ', 65_536, false),
        number: 10,
        place: 65_536,
    });
    cases.push(Case {
        text: filled("p cnf 1 1 e 1", b' ', 65_536, false),
        number: 3,
        place: 65_536,
    });
    cases.push(Case {
        text: filled("p cnf 0 0 ", b'0', 65_536, false),
        number: 10,
        place: 10,
    });
    cases.push(Case {
        text: filled("x", b' ', 65_536, true),
        number: 3,
        place: 65_535,
    });

    // Numbers of a million digits make the text too long, shorter ones are past their limit.
    for digits in [20usize, 1_000, 60_000, 65_519, 1_000_000] {
        let number = format!("1{}", "0".repeat(digits - 1));
        let long = digits == 1_000_000;
        let or_long = |number: u32, place: u32| if long { (1, 0) } else { (number, place) };
        for (text, (number, place)) in [
            (format!("p cnf {}", number), or_long(4, 6)),
            (format!("p cnf -{}", number), or_long(3, 6)),
            (format!("p cnf 1 {}", number), or_long(4, 8)),
            (format!("p cnf 1 1 e {}", number), or_long(5, 12)),
            (format!("p cnf 1 1 a -{}", number), or_long(5, 12)),
            (format!("p cnf 1 1 {}", number), or_long(5, 10)),
            (format!("p cnf 1 1 -{}", number), or_long(5, 10)),
            (format!("p cnf 1 1 {}x", number), or_long(3, 10)),
            (format!("p cnf 1 1 0{}", number), or_long(3, 10)),
            (format!("p cnf 1 1 0 {}", number), or_long(10, 12)),
        ] {
            add(cases, &text, number, place);
        }
    }
    // 3 digits that return to 1 under any power of two, ten thousand digits wide.
    let wide = format!("{}1", "18446744073709551616".repeat(500));
    add(cases, &format!("p cnf 1 1 e {} 0", wide), 5, 12);
    let nothing = "0".repeat(50_000);
    add(cases, &format!("p cnf 1 1 e {} 0", nothing), 3, 12);
}
