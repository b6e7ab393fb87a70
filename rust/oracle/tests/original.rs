//! The oracle itself: it answers what the specification says of its examples, and the original
//! keeps what the port relies on. Without the original files only the last test is here.

#[cfg(original)]
mod with_the_original {
    use oracle::shares::Shares;
    use oracle::{analyze, schedule, Outcome};
    use sheets::answer::{Answer, Placed};
    use sheets::lists::Definition;
    use sheets::tree::{Expr, Literal, Node, Query, Snippet};
    use sheets::{examples, limits, vectors, Sheet};

    fn answer_text(sheet: &Sheet) -> String {
        match analyze(sheet).expect("the original").outcome {
            Outcome::Answered(answer) => answer.text(),
            Outcome::TooLong => "too long".to_string(),
        }
    }

    #[test]
    fn the_worked_example_comes_out_byte_for_byte() {
        let text = include_str!("../../../examples/worked.sheet");
        let example = examples::worked();
        assert_eq!(example.snippet.sheet().text(), text);
        let sheet = Sheet::read(text).expect("a sheet");
        assert_eq!(answer_text(&sheet), example.answer);
    }

    #[test]
    fn the_trial_queries_come_out_as_specified() {
        for example in examples::trials() {
            let sheet = example.snippet.sheet();
            assert_eq!(answer_text(&sheet), example.answer, "{}", example.label);
        }
    }

    #[test]
    fn x_assigned_from_itself_records_what_is_specified() {
        let trials = examples::trials();
        let trial = trials.iter().find(|t| t.label == "x := x + 1");
        let sheet = trial.expect("the trial").snippet.sheet();
        let run = analyze(&sheet).expect("the original");
        let definition = |name, used| Definition {
            statement: 0,
            name,
            used,
        };
        let recorded = [definition(1, vec![]), definition(0, vec![1])];
        assert_eq!(run.analyses[0].list.definitions, recorded);
    }

    #[test]
    fn the_trial_lists_come_out_as_specified() {
        for example in examples::list_trials() {
            let scheduled = schedule(&example.list).expect("the original");
            assert_eq!(scheduled, example.scheduled, "{}", example.label);
        }
    }

    #[test]
    fn generated_sheets_fall_out_in_the_shares_wanted() {
        let shares = Shares::of_seeds(1, 20_000).expect("the original");
        println!("{shares}");
        let share = |part: usize, whole: usize| part as f64 / whole as f64;
        assert!(share(shares.accepted, shares.sheets) >= 1.0 / 3.0);
        for number in 11..=14 {
            let refused = share(shares.refusals(number), shares.sheets);
            assert!(refused >= 0.01, "refusal {number}");
        }
        assert!(share(shares.unplaced, shares.accepted) >= 0.2);
        assert!(share(shares.too_long, shares.sheets) <= 0.01);
        assert!(share(shares.many_names, shares.sheets) >= 1.0 / 3.0);
    }

    #[test]
    fn analysing_a_query_again_never_changes_its_answer() {
        let shares = Shares::of_seeds(100_000, 20_000).expect("the original");
        println!("analysed again: {}", shares.analysed_again);
        assert!(shares.analysed_again >= 1_000);
        assert_eq!(shares.changed_again, 0);
    }

    #[test]
    fn what_schedule_gets_is_bounded_and_leaves_no_statement_bare() {
        let shares = Shares::of_seeds(200_000, 10_000).expect("the original");
        println!("longest list: {}", shares.longest_list);
        println!("without repeats: {}", shares.longest_distinct);
        assert_eq!(shares.bare_statements, 0);
        assert!(shares.longest_distinct <= limits::DEFINITIONS);
    }

    /// `schedule` on a query's recorded definitions, names as numbers, gives the query's answer:
    /// the order of the texts is the order of the rows.
    #[test]
    fn schedule_by_numbers_is_schedule_by_texts() {
        for seed in 1..=3_000 {
            let run = analyze(&sheets::generate::sheet(seed)).expect("the original");
            for analysis in run.analyses {
                let scheduled = schedule(&analysis.list).expect("the original");
                assert_eq!(scheduled.order, analysis.answer.order, "seed {seed}");
                assert_eq!(scheduled.reached, analysis.answer.reached, "seed {seed}");
                let placed = analysis.answer.placed == Placed::Yes;
                assert_eq!(scheduled.placed, placed, "seed {seed}");
            }
        }
    }

    fn one_statement(expr: Expr) -> Sheet {
        let statements = vec![Literal::Expr(expr).plain()];
        let query = Query { statements };
        Snippet {
            query,
            ..Snippet::default()
        }
        .sheet()
    }

    #[test]
    fn the_deepest_expressions_do_not_overflow_the_stack() {
        let shapes: [fn(Expr) -> Node; 4] = [
            |e| Node::UnaryExpr(Box::new(e)),
            |e| Node::Array(vec![e]),
            |e| Node::RefDot(Box::new(e), "a".to_string()),
            |e| Node::Call(Box::new(Node::Number.at(1, 1)), vec![e]),
        ];
        for (shape, rows) in shapes.iter().zip([1, 1, 1, 2]) {
            let mut expr = Node::Var("input".to_string()).at(1, 1);
            for _ in 0..(limits::EXPRESSIONS - 1) / rows {
                expr = shape(expr).at(1, 1);
            }
            let sheet = one_statement(expr);
            assert!(sheet.exprs.len() > limits::EXPRESSIONS - 2);
            let expected = "query placed input\n1 1 1\n\n";
            assert!(answer_text(&sheet).starts_with(expected));
        }
    }

    #[test]
    fn long_chains_of_brackets_are_given_up() {
        let chain = |length| {
            let mut expr = Node::Var("data".to_string()).at(1, 1);
            for _ in 0..length {
                let index = Node::Var("i".to_string()).at(1, 1);
                expr = Node::RefBrack(Box::new(expr), Box::new(index)).at(1, 1);
            }
            one_statement(expr)
        };
        let entries = |length| {
            let run = analyze(&chain(length)).expect("the original");
            (run.traverse_entries, run.outcome == Outcome::TooLong)
        };
        assert!(!entries(10).1);
        assert!(entries(11).0 > entries(10).0 * 3 / 2, "the work doubles");
        assert!(entries(40).1);
    }

    #[test]
    fn the_fixed_list_has_the_answers_of_the_original() {
        let list = vectors::read(include_str!("../../vectors/sheets.txt"));
        for vector in list {
            let sheet = Sheet::read(&vector.sheet).expect("a sheet");
            assert_eq!(answer_text(&sheet), vector.answer, "{}", vector.label);
        }
    }

    #[test]
    fn answers_of_generated_sheets_are_well_formed() {
        for seed in 1..=5_000 {
            let text = answer_text(&sheets::generate::sheet(seed));
            if text != "too long" {
                let answer = Answer::read(&text);
                assert_eq!(answer.map(|a| a.text()), Some(text), "seed {seed}");
            }
        }
    }
}

#[test]
fn the_oracle_says_whether_it_has_the_original() {
    let answer = oracle::schedule(&sheets::lists::List::default());
    assert_eq!(answer.is_ok(), oracle::AT_HAND);
    if !oracle::AT_HAND {
        println!(
            "skipped: every comparison with the original. {}",
            oracle::NotAtHand
        );
    }
}
