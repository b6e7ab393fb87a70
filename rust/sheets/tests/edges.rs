//! Every edge has the result that was written for it.

use sheets::check::check_text;
use sheets::edges::{edges, Edge};
use sheets::limits::{LIBRARY, PRINTING};
use std::collections::BTreeSet;

#[test]
fn every_edge_gives_its_expected_result() {
    for limits in [LIBRARY, PRINTING] {
        let wrong: Vec<String> = edges(limits)
            .iter()
            .filter_map(|edge| {
                let result = check_text(&edge.text, limits).map(|_| ());
                (result != edge.expected)
                    .then(|| format!("{}: {result:?}, not {:?}", edge.label, edge.expected))
            })
            .collect();
        assert!(wrong.is_empty(), "{limits:?}: {}", wrong.join("\n"));
    }
}

#[test]
fn edges_that_pass_read_back() {
    for limits in [LIBRARY, PRINTING] {
        let mut passing = 0;
        for edge in edges(limits).iter().filter(|e| e.expected.is_ok()) {
            let sheet = check_text(&edge.text, limits).expect("an edge that passes");
            assert_eq!(sheet.text().as_bytes(), edge.text, "{}", edge.label);
            passing += 1;
        }
        assert!(passing > 100, "{passing} edges pass");
    }
}

#[test]
fn every_refusal_has_an_edge_and_labels_differ() {
    for limits in [LIBRARY, PRINTING] {
        let edges = edges(limits);
        let numbers: BTreeSet<u16> = edges
            .iter()
            .filter_map(|e| e.expected.err().map(|fault| fault.number))
            .collect();
        assert_eq!(numbers, BTreeSet::from([2, 3, 4, 5, 6]));
        let labels: BTreeSet<&str> = edges.iter().map(|e| e.label.as_str()).collect();
        assert_eq!(labels.len(), edges.len());
        println!("{} edges", edges.len());
    }
}

/// The refusal of an edge, its number and line; none where it passes.
fn refusal(edges: &[Edge], label: &str) -> Option<(u16, usize)> {
    let edge = edges.iter().find(|edge| edge.label == label);
    let expected = edge.unwrap_or_else(|| panic!("no edge `{label}`")).expected;
    expected.err().map(|fault| (fault.number, fault.line))
}

#[test]
fn names_are_counted_to_511_and_in_the_printing_program_to_127() {
    let (library, printing) = (edges(LIBRARY), edges(PRINTING));
    for count in [126, 127, 128, 129, 510, 511, 512, 513] {
        let label = format!("{count} names");
        let over = (count > 511).then_some((5, 513));
        assert_eq!(refusal(&library, &label), over, "{label}");
        let over = (count > 127).then_some((5, 129));
        assert_eq!(refusal(&printing, &label), over, "{label}");
    }
}

#[test]
fn a_whole_sheet_may_be_too_long() {
    let (library, printing) = (edges(LIBRARY), edges(PRINTING));
    let label = "32768 bytes of a whole sheet";
    assert_eq!(refusal(&library, label), None);
    assert_eq!(refusal(&printing, label), Some((5, 129)));
    for edges in [library, printing] {
        let label = "32769 bytes of a whole sheet";
        assert_eq!(refusal(&edges, label), Some((2, 0)));
    }
}
