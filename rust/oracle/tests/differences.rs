//! The queries of `docs/DIFFERENCES.md`, put to the original.

use oracle::{analyze, NotAtHand, Outcome, AT_HAND};
use sheets::differences::DIFFERENCES;

#[test]
fn the_original_answers_what_the_list_has() {
    if !AT_HAND {
        println!("skipped: {NotAtHand}");
        return;
    }
    for difference in DIFFERENCES {
        let run = analyze(&difference.sheet()).expect("the original");
        let Outcome::Answered(answer) = run.outcome else {
            panic!("{}: too long", difference.label());
        };
        assert_eq!(answer.text(), difference.answer(), "{}", difference.label());
    }
}
