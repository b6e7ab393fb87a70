//! Bytes: the length, the form of lines and values, the names, and the order of questions.

use super::{headings, limits, names, number, plain, sheet, var, Edge};
use crate::sheet::{BuiltinRow, ExprRow, Sheet, StatementRow, HEADINGS};
use crate::tree::{Node, Statement};

pub(super) fn add(edges: &mut Vec<Edge>, most_names: usize) {
    lengths(edges, most_names);
    ends(edges);
    headings_and_sections(edges);
    values(edges);
    name_lines(edges);
    order_of_questions(edges, most_names);
}

/// A valid sheet with a row in every section and a modifier.
fn base() -> Sheet {
    let call = Node::Call(var("f").into(), vec![number(), var("x")]).unplaced();
    let statement = Statement {
        with: vec![number()],
        ..plain(call)
    };
    let mut base = sheet(vec![statement, plain(var("y"))]);
    base.builtins.push(BuiltinRow {
        arity: 1,
        path: [1, 2, 0],
    });
    base
}

/// How a sheet is brought to a number of bytes, and the refusal it then has by document 01.
type Pad = fn(usize, usize) -> (Vec<u8>, u16, usize);

/// Below the limit a later question refuses; `long` has sheets that then pass.
fn lengths(edges: &mut Vec<Edge>, most_names: usize) {
    let ways: [(&str, Pad); 5] = [
        ("behind the end", |bytes, _| {
            let mut text = base().text().into_bytes();
            let line = text.iter().filter(|&&b| b == b'\n').count() + 1;
            text.resize(bytes, b'0');
            (text, 3, line)
        }),
        ("empty lines behind the end", |bytes, _| {
            let mut text = base().text().into_bytes();
            let line = text.iter().filter(|&&b| b == b'\n').count() + 1;
            text.resize(bytes, b'\n');
            (text, 3, line)
        }),
        ("a long name", |bytes, _| {
            let mut sheet = base();
            let rest = bytes - sheet.text().len() - 1;
            sheet.names.push("z".repeat(rest));
            let line = headings(&sheet).name + sheet.names.len();
            (sheet.text().into_bytes(), 4, line)
        }),
        ("many queries", |bytes, _| {
            let mut sheet = base();
            let rest = bytes - sheet.text().len();
            // A query takes two bytes, and three where its number has two digits.
            sheet.queries.extend(vec![0; rest / 2]);
            if rest % 2 == 1 {
                sheet.queries[1] = 10;
            }
            let line = headings(&sheet).statement + limits::QUERIES + 1;
            (sheet.text().into_bytes(), 5, line)
        }),
        ("large values", large_values),
    ];
    for (label, pad) in ways {
        for bytes in [limits::BYTES - 1, limits::BYTES, limits::BYTES + 1] {
            let (text, number, line) = pad(bytes, most_names);
            assert_eq!(text.len(), bytes, "{label}");
            let label = format!("{bytes} bytes through {label}");
            edges.push(if bytes <= limits::BYTES {
                Edge::refused(label, text, number, line)
            } else {
                Edge::refused(label, text, 2, 0)
            });
        }
    }
}

/// Every count at its limit and the fields as long as they have to be. The fields are shortened
/// from the last row on, so the first expression's kind stays wrong.
fn large_values(bytes: usize, most_names: usize) -> (Vec<u8>, u16, usize) {
    let mut rows = vec![[u16::MAX; 8]; limits::EXPRESSIONS];
    let mut padded = Sheet {
        names: names(most_names)
            .iter()
            .map(|name| format!("{name:_<32}"))
            .collect(),
        exprs: Vec::new(),
        statements: vec![StatementRow::from_values([u16::MAX; 7]); limits::STATEMENTS],
        queries: vec![u16::MAX; limits::QUERIES],
        builtins: Vec::new(),
    };
    // The rows of expressions take 6 bytes a value at most and 2 at least.
    let own = padded.text().len();
    let mut excess = own + rows.len() * 8 * 6 - bytes;
    for value in rows.iter_mut().rev().flatten() {
        let shorter = excess.min(4);
        *value /= 10u16.pow(shorter as u32);
        excess -= shorter;
    }
    padded.exprs = rows.into_iter().map(ExprRow::from_values).collect();
    let line = headings(&padded).kind + 1;
    (padded.text().into_bytes(), 6, line)
}

/// The text cut off everywhere, and going on behind its end.
fn ends(edges: &mut Vec<Edge>) {
    let text = base().text();
    for kept in 0..text.len() {
        // What stands behind the last line end is a line at fault, or the line is missing.
        let line = text[..kept].matches('\n').count() + 1;
        let label = format!("cut to {kept} bytes");
        edges.push(Edge::refused(label, &text[..kept], 3, line));
    }
    let line = text.matches('\n').count() + 1;
    for behind in ["\n", "0", " ", "1\n", "\0", "name\n\n"] {
        let label = format!("{behind:?} behind the end");
        edges.push(Edge::refused(label, text.clone() + behind, 3, line));
    }
}

fn headings_and_sections(edges: &mut Vec<Edge>) {
    let sheet = base();
    let text = sheet.text();
    let at = headings(&sheet);
    let lines = [at.name, at.arity, at.kind, at.form, at.statement];
    for (heading, line) in HEADINGS.iter().zip(lines) {
        let changes = [
            ("with a space behind", format!("{heading} ")),
            ("with a line end before", format!("\n{heading}")),
            ("with CR", format!("{heading}\r")),
            ("in capitals", heading.to_uppercase()),
            ("cut short", heading[1..].to_string()),
        ];
        for (label, changed) in changes {
            let text = text.replace(&format!("{heading}\n"), &format!("{changed}\n"));
            let label = format!("heading `{heading}` {label}");
            edges.push(Edge::refused(label, text, 3, line));
        }
        // The rows below and the next heading move up by a line; the first of them is no heading.
        let text = text.replace(&format!("{heading}\n"), "");
        edges.push(Edge::refused(
            format!("no heading `{heading}`"),
            text,
            3,
            line,
        ));
    }
    // A heading that follows the rows at once is a row at fault.
    for (heading, line) in HEADINGS.iter().zip(lines).skip(2) {
        let text = text.replace(&format!("\n\n{heading}\n"), &format!("\n{heading}\n"));
        let label = format!("no empty line before `{heading}`");
        edges.push(Edge::refused(label, text, 3, line - 1));
    }
    // Behind the names it is a name, and `kind ...` stands where that heading is wanted.
    let joined = text.replace("\n\narity", "\narity");
    let label = "no empty line behind the names";
    edges.push(Edge::refused(label, joined, 3, at.kind - 1));

    let named = Sheet {
        names: vec!["name".to_string()],
        queries: vec![0],
        ..Sheet::default()
    };
    edges.push(Edge::passes("a name called `name`", named.text()));
}

fn values(edges: &mut Vec<Edge>) {
    // Positions are free: every value is in range.
    for value in [0, 1, 9, 10, u16::MAX - 1, u16::MAX] {
        let mut sheet = base();
        (sheet.exprs[1].line, sheet.exprs[1].col) = (value, value);
        edges.push(Edge::passes(
            format!("position {value} {value}"),
            sheet.text(),
        ));
    }
    let sheet = base();
    let at = headings(&sheet);
    let bad = [
        "65536",
        "65540",
        "70000",
        "100000",
        "18446744073709551616",
        "00",
        "01",
        "065535",
        "+1",
        "-1",
        "-0",
        "",
        "1.0",
        "1e0",
        "0x1",
        "a",
        "1\r",
        "1\t",
        "\u{660}",
        "1 1",
        " 1",
        "1 ",
        "1_0",
        "1\0",
    ];
    for (line, columns) in [
        (at.arity + 1, &[0, 3][..]),
        (at.kind + 1, &[0, 2, 7]),
        (at.form + 1, &[0, 6]),
        (at.statement + 1, &[0]),
    ] {
        for &column in columns {
            // Where a row has one value only, an empty one would end the section.
            let bad = bad.iter().filter(|v| columns.len() > 1 || !v.is_empty());
            for value in bad {
                let text = with_value(&sheet, line, column, value);
                let label = format!("value {value:?} on line {line}, column {column}");
                edges.push(Edge::refused(label, text, 3, line));
            }
        }
    }
    largest_values(edges);
}

/// 65,535 is in the form, and as anything but a position it is beyond every limit. What the
/// field named before is then named by none, and its line may come first.
fn largest_values(edges: &mut Vec<Edge>) {
    let sheet = base();
    let at = headings(&sheet);
    let builtin = |column| (at.arity + 1, column, at.arity + 1);
    let call = |column| (at.kind + 1, column, at.kind + 1);
    let statement = |column, fault| (at.form + 1, column, fault);
    let cases = [
        builtin(0),
        builtin(1),
        builtin(2),
        builtin(3),
        call(0),
        call(1),
        call(4),
        call(5),
        call(6),
        call(7),
        // The call, the first expression, is named by none.
        statement(0, at.kind + 1),
        statement(1, at.kind + 1),
        statement(2, at.form + 1),
        statement(3, at.form + 1),
        statement(4, at.form + 1),
        // So is the modifier, the fifth expression: call, f, number and x come before it.
        statement(5, at.kind + 5),
        statement(6, at.form + 1),
        // So is the first statement.
        (at.statement + 1, 0, at.form + 1),
    ];
    for (line, column, fault) in cases {
        let text = with_value(&sheet, line, column, "65535");
        let label = format!("value 65535 on line {line}, column {column}");
        edges.push(Edge::refused(label, text, 6, fault));
    }
}

/// The text with one value replaced; lines count from 1 and columns from 0.
fn with_value(sheet: &Sheet, line: usize, column: usize, value: &str) -> String {
    let text = sheet.text();
    let mut lines: Vec<String> = text.split('\n').map(str::to_string).collect();
    let mut fields: Vec<&str> = lines[line - 1].split(' ').collect();
    fields[column] = value;
    lines[line - 1] = fields.join(" ");
    lines.join("\n")
}

fn name_lines(edges: &mut Vec<Edge>) {
    let with = |lines: &[&[u8]]| {
        let mut text = b"name\n".to_vec();
        for line in lines {
            text.extend_from_slice(line);
            text.push(b'\n');
        }
        let rest = sheet(vec![]).text();
        text.extend_from_slice(&rest.as_bytes()["name\n".len()..]);
        text
    };
    let bad: [&[u8]; 17] = [
        b"n b",
        b" n",
        b"n ",
        b"n\r",
        b"\r",
        b"n\t",
        b"n\0",
        b"0n",
        b"9",
        b"n-n",
        b"n.n",
        b"\xff",
        b"n\xff",
        b"\xc3\x28",
        "n\u{e9}".as_bytes(),
        "\u{3b1}".as_bytes(),
        b"kind name line",
    ];
    for name in bad {
        let label = format!("name {:?}", String::from_utf8_lossy(name));
        edges.push(Edge::refused(label, with(&[b"a", name]), 4, 3));
    }
    for ascending in [
        [&b"A"[..], b"B"],
        [b"Z", b"_"],
        [b"_", b"a"],
        [b"a", b"a0"],
        [b"a0", b"aA"],
        [b"aZ", b"a_"],
        [b"a_", b"aa"],
        [b"aa", b"b"],
    ] {
        let [low, high] = ascending.map(String::from_utf8_lossy);
        let label = format!("names {low} and {high}");
        edges.push(Edge::passes(&label, with(&ascending)));
        let [low_line, high_line] = ascending;
        let turned = with(&[high_line, low_line]);
        edges.push(Edge::refused(format!("{label} turned"), turned, 4, 3));
        let twice = with(&[low_line, low_line, high_line]);
        edges.push(Edge::refused(format!("{label}, twice"), twice, 4, 3));
    }
}

/// An earlier question anywhere in the sheet comes before a later one.
fn order_of_questions(edges: &mut Vec<Edge>, most_names: usize) {
    let mut sheet = base();
    let last = headings(&sheet).statement + 1;
    sheet.names.swap(0, 1);
    let malformed = with_value(&sheet, last, 0, "01");
    edges.push(Edge::refused("3 below 4", malformed, 3, last));

    sheet = base();
    sheet.names = names(most_names + 1);
    sheet.names[most_names] = "0".to_string();
    let line = headings(&sheet).name + most_names + 1;
    let label = "a name too many that is none";
    edges.push(Edge::refused(label, sheet.text(), 4, line));

    sheet = base();
    sheet.builtins[0].arity = 256;
    sheet.queries.extend([0; limits::QUERIES]);
    let line = headings(&sheet).statement + limits::QUERIES + 1;
    edges.push(Edge::refused("5 below 6", sheet.text(), 5, line));

    sheet = base();
    sheet.builtins[0].arity = 256;
    sheet.names.push("0".to_string());
    let line = headings(&sheet).name + sheet.names.len();
    edges.push(Edge::refused("4 above 6", sheet.text(), 4, line));
}
