//! What the proved analysis has to answer, in both widths: from what the plain reader says of the
//! sheet, and the original of one that passes.

use crate::comparing::{refusal, Call, Due, Lengths, Outcome};
use nokchbem::Refusal;
use sheets::answer::{Answer, Placed};
use sheets::limits::{Limits, LIBRARY, PRINTING};
use sheets::Sheet;

/// `nokchbem::analyze`.
pub struct AnalyzeCall;

impl Call for AnalyzeCall {
    const LIMITS: Limits = LIBRARY;
    const READER_NAMES: usize = reader::LIBRARY;

    fn call(
        sheet: &[u8],
        tables: &mut [u16],
        work: &mut [u64],
        answer: &mut [u8],
    ) -> Result<(), Refusal> {
        let length = nokchbem::analyze(sheet, tables, work, answer)?;
        assert!(length <= answer.len());
        Ok(())
    }

    fn due(sheet: &[u8], lengths: Lengths) -> Due {
        of_sheet::<Self>(sheet, lengths)
    }

    fn well_formed(answer: &[u8]) -> bool {
        is_answer(answer)
    }
}

/// `narrow::analyze`, the printing program's call.
pub struct NarrowCall;

impl Call for NarrowCall {
    const LIMITS: Limits = PRINTING;
    const READER_NAMES: usize = reader::PRINTING;

    fn call(
        sheet: &[u8],
        tables: &mut [u16],
        work: &mut [u64],
        answer: &mut [u8],
    ) -> Result<(), Refusal> {
        let length = narrow::analyze(sheet, tables, work, answer)?;
        assert!(length <= answer.len());
        Ok(())
    }

    fn due(sheet: &[u8], lengths: Lengths) -> Due {
        of_sheet::<Self>(sheet, lengths)
    }

    fn well_formed(answer: &[u8]) -> bool {
        is_answer(answer)
    }
}

fn of_sheet<C: Call>(sheet: &[u8], lengths: Lengths) -> Due {
    if let Err(refusal) = C::rows(sheet, lengths) {
        return Due::refused(refusal);
    }
    let text = std::str::from_utf8(sheet).expect("a sheet that passes is a text");
    let sheet = Sheet::read(text).expect("a sheet that passes");
    match oracle::analyze(&sheet).map(|run| run.outcome) {
        Ok(oracle::Outcome::Answered(answer)) => of_answer(&answer, lengths),
        Ok(oracle::Outcome::TooLong) => Due::unknown(Outcome::TooLong),
        Err(oracle::NotAtHand) => Due::unknown(Outcome::Alone),
    }
}

/// A text of the form, and zeros behind it.
fn is_answer(answer: &[u8]) -> bool {
    let end = answer.iter().position(|&byte| byte == 0);
    let (text, zeros) = answer.split_at(end.unwrap_or(answer.len()));
    let text = std::str::from_utf8(text).unwrap_or_default();
    Answer::read(text).is_some() && zeros.iter().all(|&byte| byte == 0)
}

/// What is due of a sheet that passes questions 1 to 6 and has this answer. Question 8 comes last:
/// does the text fit?
pub fn of_answer(answer: &Answer, lengths: Lengths) -> Due {
    let queries = match answer {
        &Answer::Refusal { number, line, col } => {
            return Due::refused(Refusal { number, line, col });
        }
        Answer::Queries(queries) => queries,
    };
    let text = answer.text();
    if text.len() > lengths.answer {
        return Due::refused(refusal(7, 0));
    }
    let outcome = if queries.iter().any(|query| query.placed == Placed::No) {
        Outcome::Unplaced
    } else {
        Outcome::Passed
    };
    Due {
        answer: text.into_bytes(),
        ..Due::passed(outcome)
    }
}
