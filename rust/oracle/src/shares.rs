//! How generated sheets fall out at the original: shares that a test checks and a command prints.

use crate::{analyze, NotAtHand, Outcome};
use sheets::answer::{Answer, Placed};
use sheets::census;
use sheets::limits::PRINTING;
use sheets::lists::Definition;
use std::collections::{BTreeMap, BTreeSet};
use std::fmt;

/// Counts over a run of generated sheets.
#[derive(Clone, Debug, Default)]
pub struct Shares {
    pub sheets: usize,
    pub accepted: usize,
    pub too_long: usize,
    /// By refusal number.
    pub refused: BTreeMap<u16, usize>,
    /// Accepted sheets in which a query is unplaced.
    pub unplaced: usize,
    /// Accepted sheets in which a query was never analysed.
    pub never_analysed: usize,
    /// Sheets by feature.
    pub features: BTreeMap<String, usize>,
    pub bytes: usize,
    /// Sheets with more names than the printing program takes.
    pub many_names: usize,
    /// Analyses of a query that had been analysed before.
    pub analysed_again: usize,
    /// Those of them with another answer.
    pub changed_again: usize,
    /// The longest list of definitions that `schedule` got, as it got it.
    pub longest_list: usize,
    /// The same, repeats counted once.
    pub longest_distinct: usize,
    /// Statements that reached `schedule` without a definition.
    pub bare_statements: usize,
}

impl Shares {
    /// Runs the sheets of `count` seeds from `seed` up.
    pub fn of_seeds(seed: u64, count: usize) -> Result<Shares, NotAtHand> {
        crate::on_deep_stack(|| {
            let mut shares = Shares::default();
            for feature in census::features() {
                shares.features.insert(feature, 0);
            }
            for seed in seed..seed + count as u64 {
                shares.add(&sheets::generate::sheet(seed))?;
            }
            Ok(shares)
        })
    }

    fn add(&mut self, sheet: &sheets::Sheet) -> Result<(), NotAtHand> {
        let run = analyze(sheet)?;
        self.sheets += 1;
        self.bytes += sheet.text().len();
        self.many_names += usize::from(sheet.names.len() > PRINTING.names);
        for feature in census::features_of(sheet) {
            *self.features.entry(feature).or_default() += 1;
        }
        match &run.outcome {
            Outcome::TooLong => self.too_long += 1,
            Outcome::Answered(Answer::Refusal { number, .. }) => {
                *self.refused.entry(*number).or_default() += 1;
            }
            Outcome::Answered(Answer::Queries(queries)) => {
                self.accepted += 1;
                let some = |placed| queries.iter().any(|q| q.placed == placed);
                self.unplaced += usize::from(some(Placed::No));
                self.never_analysed += usize::from(some(Placed::NeverAnalysed));
            }
        }
        for (at, analysis) in run.analyses.iter().enumerate() {
            let before = run.analyses[..at]
                .iter()
                .rfind(|a| a.query == analysis.query);
            if let Some(before) = before {
                self.analysed_again += 1;
                self.changed_again += usize::from(before.answer != analysis.answer);
            }
            self.longest_list = self.longest_list.max(analysis.list.definitions.len());
            self.longest_distinct = self
                .longest_distinct
                .max(distinct(&analysis.list.definitions));
            for statement in 0..analysis.list.statements {
                let has = analysis
                    .list
                    .definitions
                    .iter()
                    .any(|d| d.statement == statement);
                self.bare_statements += usize::from(!has);
            }
        }
        Ok(())
    }

    pub fn refusals(&self, number: u16) -> usize {
        self.refused.get(&number).copied().unwrap_or(0)
    }
}

/// How many definitions there are when the order and repeats of used names, and whole repeats, do
/// not count.
fn distinct(definitions: &[Definition]) -> usize {
    let key = |d: &Definition| (d.statement, d.name, d.used.iter().copied().collect());
    let set: BTreeSet<(u16, u16, BTreeSet<u16>)> = definitions.iter().map(key).collect();
    set.len()
}

impl fmt::Display for Shares {
    fn fmt(&self, f: &mut fmt::Formatter<'_>) -> fmt::Result {
        let share = |part: usize, whole: usize| {
            format!("{:6.2} %", 100.0 * part as f64 / whole.max(1) as f64)
        };
        let all = self.sheets;
        writeln!(f, "sheets             {all}")?;
        writeln!(f, "mean bytes         {}", self.bytes / all.max(1))?;
        writeln!(f, "over 127 names    {}", share(self.many_names, all))?;
        writeln!(f, "accepted          {}", share(self.accepted, all))?;
        for number in 11..=14 {
            let count = self.refusals(number);
            writeln!(f, "refused with {number}   {}", share(count, all))?;
        }
        writeln!(f, "too long          {}", share(self.too_long, all))?;
        writeln!(f, "of the accepted, with a query")?;
        writeln!(
            f,
            "  unplaced        {}",
            share(self.unplaced, self.accepted)
        )?;
        let never = share(self.never_analysed, self.accepted);
        writeln!(f, "  never analysed  {never}")?;
        writeln!(
            f,
            "queries analysed again {}, with another answer {}",
            self.analysed_again, self.changed_again
        )?;
        writeln!(
            f,
            "longest list of definitions {}, without repeats {}; statements without one {}",
            self.longest_list, self.longest_distinct, self.bare_statements
        )?;
        writeln!(f, "sheets by feature")?;
        for (feature, count) in &self.features {
            writeln!(f, "  {count:7}  {feature}")?;
        }
        Ok(())
    }
}
