//! A refusal in words.

use nokchbem::Refusal;

#[test]
fn a_refusal_says_its_number_its_place_and_its_reason() {
    let packed = (5 << 32) + (513 << 16);
    let refusal = Refusal::unpack(packed);
    assert_eq!(
        refusal.to_string(),
        "refused with 5 at line 513, column 0: a section has too many rows, or there is no query"
    );
    let refusal = Refusal::unpack((12 << 32) + (3 << 16) + 7);
    assert_eq!(
        refusal.to_string(),
        "refused with 12 at line 3, column 7: a variable used before its definition"
    );
}

#[test]
fn every_number_of_the_calls_has_a_reason_and_no_other() {
    for number in 0..=u16::MAX {
        let refusal = Refusal {
            number,
            line: 1,
            col: 2,
        };
        let known = matches!(number, 1..=8 | 11..=14);
        assert_eq!(refusal.reason().is_some(), known, "{number}");
        let start = format!("refused with {number} at line 1, column 2");
        let said = refusal.to_string();
        let rest = said.strip_prefix(&start).expect("number and place");
        assert_eq!(rest.starts_with(": "), known, "{said}");
    }
}
