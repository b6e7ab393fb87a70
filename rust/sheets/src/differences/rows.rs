//! One row a query, under the headings of the page.

use super::{answers, refuses, Difference};

pub const DIFFERENCES: &[Difference] = &[
    // Assignments
    answers(
        "x = y\ny = x",
        "1 0 0",
        "1 0 0 0, 1 1 1 0",
        "1 2 1 0 0, 1 2 2 0 0",
    ),
    answers(
        "y = [a | a = b; b = a]",
        "1 1 0, 2 0 0",
        "1 0 0 1, 2 0 0 0, 2 1 1 0",
        "1 2 3 0 0, 2 2 1 0 0, 2 2 2 0 0",
    ),
    answers("x := y", "1 0 0", "1 0 0 0", "1 1 1 1 1, 1 2 2 0 0"),
    answers("x := x + 1", "1 1 0", "1 0 0 1", "1 1 1 1 1"),
    answers("x = x + 1", "1 1 0", "1 0 0 1", "1 2 1 0 0"),
    answers("x = x + 1\nx = 2", "1 1 0", "1 0 0 1, 1 1 1 1", "1 2 1 0 0"),
    answers("x = x", "1 1 0", "1 0 0 1", "1 2 1 0 0"),
    answers("x = [x, y]", "1 1 0", "1 0 0 1", "1 2 1 0 0, 1 2 2 0 0"),
    answers(
        "x = [1 | x > 0]",
        "1 1 0, 2 1 0",
        "1 0 0 1, 2 0 0 1",
        "1 2 1 0 0, 2 3 1 0 0",
    ),
    answers("x = input[x]", "1 1 1", "1 0 0 1", "1 2 2 0 0"),
    answers("x = _", "1 1 0", "1 0 0 1", "1 2 2 0 0"),
    answers("_ > 0", "1 1 0", "1 0 0 1", ""),
    answers("{k: 1} = {\"a\": 1}", "1 1 0", "1 0 0 1", "1 2 2 0 0"),
    answers(
        "{\"a\": x, \"b\": 1} = {\"a\": 1, \"b\": y}",
        "1 0 0",
        "1 0 0 0",
        "1 2 3 0 0, 1 2 4 0 0",
    ),
    answers("input[i] := 1", "1 1 1", "1 0 0 1", "1 2 1 0 0"),
    answers("1 := x", "1 1 0", "1 0 0 1", "1 2 1 0 0"),
    refuses("[z, [y]] := [1, [2, 3]]", 13, 1, 17),
    answers("x > 0\nx = 1", "1 1 0", "1 0 1 1, 1 1 0 1", "1 2 1 0 0"),
    refuses("x > 0\nx := 1", 12, 1, 1),
    refuses("x := 1\nx := 2", 12, 1, 1),
    // Negation
    answers("not x = 1", "1 1 0", "1 0 0 1", "1 2 1 0 0"),
    answers("not x = 1\nx = 2", "1 1 0", "1 0 0 1, 1 1 1 1", "1 2 1 0 0"),
    answers("not input[i]", "1 1 1", "1 0 0 1", "1 2 1 0 0"),
    answers(
        "not input[i]\ni = 1",
        "1 1 1",
        "1 0 0 1, 1 1 1 1",
        "1 2 1 0 0",
    ),
    answers("not f(1, n)", "1 0 0", "1 0 0 0", "1 2 2 0 0").calling("f"),
    // Calls
    answers(
        "f(1, b)\nf(1, a)\na > 0",
        "1 1 0",
        "1 0 1 1, 1 1 2 1, 1 2 0 1",
        "1 2 1 0 0, 1 2 2 0 0",
    )
    .calling("f"),
    answers("f(n, n)", "1 1 0", "1 0 0 1", "1 2 2 0 0").calling("f"),
    answers("f(n, n)\nf(2, n)", "1 1 0", "1 0 0 1, 1 1 1 1", "1 2 2 0 0").calling("f"),
    answers("f(n[0], n)", "1 1 0", "1 0 0 1", "1 2 2 0 0").calling("f"),
    answers(
        "f(1, n)\nn := 1",
        "1 1 0",
        "1 0 1 1, 1 1 0 1",
        "1 1 2 2 1, 1 2 2 0 0",
    )
    .calling("f"),
    answers("f(1, n = 2)", "1 0 0", "1 0 0 0", "1 2 2 0 0").calling("f"),
    answers("f.g[0](1, n)", "1 1 0", "1 0 0 1", "1 2 3 0 0").calling("f.g"),
    answers("g(1)", "1 1 0", "1 0 0 1", ""),
    refuses("g(1, n)", 11, 1, 6),
    answers("f()", "1 1 0", "1 0 0 1", "").calling("f"),
    answers("f(1, 2, 3)", "1 1 0", "1 0 0 1", "").calling("f"),
    refuses("f(1, 2, n)", 11, 1, 9).calling("f"),
    // `some`
    answers("some x", "1 1 0", "1 0 0 1", "1 1 1 1 6"),
    answers("some x\nsome x", "1 1 0", "1 0 0 1, 1 1 1 1", "1 1 1 2 6"),
    answers("some x\nx > 0", "1 0 0", "1 0 0 1, 1 1 1 0", "1 1 1 1 6"),
    answers("some x\nx := 1", "1 1 0", "1 0 0 1, 1 1 1 1", "1 1 1 2 1"),
    refuses("x := 1\nsome x", 12, 1, 1),
    answers(
        "some x in [1]\nsome x in [2]",
        "1 1 0",
        "1 0 0 1, 1 1 1 1",
        "1 1 1 2 6",
    ),
    answers(
        "x := 1\nsome x in [2]",
        "1 1 0",
        "1 0 0 1, 1 1 1 1",
        "1 1 1 2 6",
    ),
    answers(
        "x > 0\nsome x in [1]",
        "1 1 0",
        "1 0 1 1, 1 1 0 1",
        "1 1 1 2 6",
    ),
    answers("some x in x", "1 0 0", "1 0 0 0", "1 1 1 1 6"),
    answers(
        "some 1 in [y]\ny = 2",
        "1 1 0",
        "1 0 0 1, 1 1 1 1",
        "1 2 1 0 0",
    ),
    refuses("i := 0\na := [1]\nsome [a[i]] in [1]", 14, 0, 0),
    // `every`
    answers(
        "every w in [1] { w > n }\nn = 1",
        "1 1 0, 2 1 0",
        "1 0 0 1, 1 1 1 1, 2 0 0 1",
        "1 2 1 0 0, 2 3 1 0 0, 2 3 2 0 0",
    ),
    refuses("every w in [1] { w > n }\nn := 1", 11, 1, 22),
    answers(
        "n := 1\nevery w in [1] { w > n }",
        "1 1 0, 2 1 0",
        "1 0 0 1, 1 1 1 1, 2 0 0 1",
        "1 1 1 1 1, 2 3 1 0 0, 2 3 2 0 0",
    ),
    answers(
        "every x in [1] { x := 2 }",
        "1 1 0, 2 1 0",
        "1 0 0 1, 2 0 0 1",
        "2 1 1 1 18",
    ),
    // Comprehensions
    answers(
        "y = [z | 1]",
        "1 1 0, 2 1 0",
        "1 0 0 1, 2 0 0 1",
        "1 2 1 0 0, 2 2 2 0 0",
    ),
    answers(
        "y = [x | x > 0]",
        "1 1 0, 2 0 0",
        "1 0 0 1, 2 0 0 0",
        "1 2 2 0 0, 2 2 1 0 0",
    ),
    answers(
        "y = [x | 1]\nx := 1",
        "1 1 0, 2 1 0",
        "1 0 0 1, 1 1 1 1, 2 0 0 1",
        "1 1 1 2 1, 1 2 2 0 0, 2 2 1 0 0",
    ),
    refuses("y = [x | 1]; x := 1", 12, 1, 5),
    refuses("y = [x | x = 1]; x := 2", 12, 1, 5),
    // `with`
    answers("x = 1 with input as x", "1 1 0", "1 0 0 1", "1 2 1 0 0"),
    answers(
        "some 1 in [2] with input as y\ny = 2",
        "1 1 0",
        "1 0 0 1, 1 1 1 1",
        "1 2 1 0 0",
    ),
    answers(
        "some x with input as [1 | 1]",
        "1 1 0, 2 2 0",
        "1 0 0 1",
        "1 1 1 1 6",
    ),
    answers(
        "[] = [] with input as [1 | z > 0]",
        "1 1 0, 2 2 0",
        "1 0 0 1",
        "",
    ),
    // `_`, `input` and `data`
    answers("some _\ninput[_]", "1 1 1", "1 0 0 1, 1 1 1 1", "1 1 1 1 6"),
    answers("some input in [1]", "1 1 1", "1 0 0 1", ""),
    answers(
        "some input\ninput.a > 0",
        "1 1 1",
        "1 0 0 1, 1 1 1 1",
        "1 1 2 1 6",
    ),
    answers("input := 1", "1 1 1", "1 0 0 1", ""),
    answers("data := 1", "1 1 0", "1 0 0 1", ""),
];
