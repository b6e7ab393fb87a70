//! The exported scheduler: its examples, its refusals, equality with the original, and the
//! statements on plain walks by execution.

use differential::schedules::{both_calls, compare_random, compare_small, records, schedule};
use differential::walks::{relist, Walk};
use nokchbem::Refusal;
use sheets::examples;
use sheets::lists::{Definition, List};
use sheets::rng::Rng;

/// What the longest rounds are scheduled in, in KiB: by the flat call, and by the one over records,
/// which copies 640 of them.
const FLAT_STACK: usize = 128;
const RECORDS_STACK: usize = 256;

const REFUSED: Result<bool, Refusal> = Err(Refusal {
    number: 8,
    line: 0,
    col: 0,
});

#[test]
fn the_trial_lists_come_out_as_specified() {
    for example in examples::list_trials() {
        assert_eq!(
            schedule(&example.list),
            example.scheduled,
            "{}",
            example.label
        );
    }
}

#[test]
fn small_lists_come_out_as_the_original_has_them() {
    match compare_small(3) {
        Ok(compared) => println!("{} lists, {} placed", compared.lists, compared.placed),
        Err(missing) => println!("skipped: {missing}"),
    }
}

#[test]
fn random_lists_come_out_as_the_original_has_them() {
    match compare_random(7, 50_000) {
        Ok(compared) => println!("{} lists, {} placed", compared.lists, compared.placed),
        Err(missing) => println!("skipped: {missing}"),
    }
}

/// Calls with buffers of these lengths, full of junk; a refusal must leave zeros.
fn call(rows: &[u64], statements: usize, room: usize, marks: usize) -> Result<bool, Refusal> {
    let (mut order, mut reached) = (vec![7; room], vec![7; marks]);
    let result = both_calls(rows, statements, &mut order, &mut reached);
    if result.is_err() {
        assert!(order.iter().chain(&reached).all(|&entry| entry == 0));
    }
    result
}

#[test]
fn the_one_question_is_asked_at_its_edges() {
    let row = |statement, name| [statement, name, 0, 0, 0, 0, 0, 0, 0, 0];
    assert_eq!(call(&[], 0, 0, 0), Ok(true), "nothing at all");
    assert_eq!(call(&[], 128, 128, 128), Ok(false), "128 bare statements");
    assert_eq!(call(&[], 129, 129, 129), REFUSED, "129 statements");
    assert_eq!(call(&[], usize::MAX, 4, 4), REFUSED, "any number of them");
    for name in [127, 128, 510, 511] {
        assert_eq!(call(&row(0, name), 1, 1, 1), Ok(true), "name {name}");
    }
    for name in [512, 513, 1_023, 1_024] {
        assert_eq!(call(&row(0, name), 1, 1, 1), REFUSED, "name {name}");
    }
    assert_eq!(call(&row(0, u64::MAX), 1, 1, 1), REFUSED, "any name");
    assert_eq!(
        call(&row(127, 0), 128, 128, 128),
        Ok(false),
        "statement 127"
    );
    assert_eq!(call(&row(1, 0), 1, 1, 1), REFUSED, "a statement not below");
    assert_eq!(call(&row(u64::MAX, 0), 1, 1, 1), REFUSED, "any statement");
    assert_eq!(call(&row(0, 0), 1, 0, 1), REFUSED, "a short order");
    assert_eq!(call(&row(0, 0), 1, 1, 0), REFUSED, "short marks");
    for part in 1..10 {
        assert_eq!(call(&row(0, 0)[..part], 1, 1, 1), REFUSED, "part of a row");
    }
    let full = row(0, 0).repeat(640);
    assert_eq!(call(&full, 1, 1, 1), Ok(true), "640 definitions");
    let over = row(0, 0).repeat(641);
    assert_eq!(call(&over, 1, 1, 1), REFUSED, "641 definitions");
    let many = row(0, 0).repeat(100_000);
    assert_eq!(call(&many, 1, 1, 1), REFUSED, "any number of them");
    assert_eq!(call(&full[..6399], 1, 1, 1), REFUSED, "639 and a part");
    let name = u64::from(u16::MAX);
    assert_eq!(
        call(&row(0, name), 1, 1, 1),
        REFUSED,
        "a record's last name"
    );
}

/// Each used name by itself: a definition waits for it, and no other name will do.
#[test]
fn every_name_is_told_from_every_other() {
    let names = 0..sheets::lists::NAMES as u16;
    for used in names.clone() {
        let others = names.clone().filter(|&name| name != used);
        let definition = |statement, name, used: Option<u16>| Definition {
            statement,
            name,
            used: used.into_iter().collect(),
        };
        let mut definitions = vec![definition(0, 0, Some(used))];
        definitions.extend(others.map(|name| definition(1, name, None)));
        let mut list = List {
            statements: 2,
            definitions,
        };
        let scheduled = schedule(&list);
        assert_eq!(scheduled.reached, [false, true], "name {used}");
        list.definitions.push(definition(1, used, None));
        let scheduled = schedule(&list);
        assert_eq!((scheduled.placed, scheduled.order), (true, vec![1, 0]));
    }
}

#[test]
fn the_longest_rounds_are_placed() {
    for statements in [1, 2, 64, 127, 128] {
        for (repeats, apart) in [(1, 1), (5, 1), (1, 4), (5, 4)] {
            let list = List::longest_rounds(statements, repeats, apart);
            let order: Vec<u16> = (0..statements).rev().collect();
            let scheduled = schedule(&list);
            assert!(scheduled.placed);
            assert_eq!(scheduled.order, order);
        }
    }
}

#[test]
fn a_small_stack_is_enough() {
    let rows = List::longest_rounds(128, 5, 4).rows();
    let records = records(&rows).expect("small numbers");
    let flat = move || {
        let (mut order, mut reached) = ([0; 128], [0; 128]);
        nokchbem::schedule(&rows, 128, &mut order, &mut reached)
    };
    let over_records = move || {
        let (mut order, mut reached) = ([0; 128], [0; 128]);
        nokchbem::schedule_records(&records, 128, &mut order, &mut reached)
    };
    let stack = |kib: usize| std::thread::Builder::new().stack_size(kib << 10);
    let calls = [
        stack(FLAT_STACK).spawn(flat),
        stack(RECORDS_STACK).spawn(over_records),
    ];
    for call in calls {
        let placed = call.expect("a thread").join();
        assert_eq!(placed.expect("no overflow"), Ok(true));
    }
}

#[test]
fn every_ended_walk_takes_what_is_marked_reached() {
    let mut rng = Rng::new(11);
    for _ in 0..4_000 {
        let list = List::random(&mut rng);
        let scheduled = schedule(&list);
        for _ in 0..3 {
            let walk = Walk::random(&list, &mut rng);
            for (statement, &reached) in (0..).zip(&scheduled.reached) {
                assert_eq!(walk.taken.contains(&statement), reached, "{list:?}");
            }
        }
    }
}

#[test]
fn relisting_and_exchange_move_the_marks_along() {
    let mut rng = Rng::new(12);
    for _ in 0..4_000 {
        let list = List::random(&mut rng);
        let moved = relist(&list, &mut rng);
        let (here, there) = (schedule(&list), schedule(&moved.list));
        assert_eq!(here.placed, there.placed, "{list:?}");
        let walk = Walk::random(&moved.list, &mut rng);
        for (statement, &to) in moved.statements.iter().enumerate() {
            let reached = here.reached[statement];
            assert_eq!(reached, there.reached[usize::from(to)], "{list:?}");
            assert_eq!(reached, walk.taken.contains(&to), "{list:?}");
        }
    }
}

#[test]
fn a_placed_order_can_be_walked_and_an_unplaced_one_is_the_written() {
    let mut rng = Rng::new(13);
    for _ in 0..10_000 {
        let list = List::random(&mut rng);
        let scheduled = schedule(&list);
        if scheduled.placed {
            let mut walk = Walk::default();
            assert!(
                scheduled.order.iter().all(|&s| walk.pick(&list, s)),
                "{list:?}"
            );
            assert_eq!(walk.taken.len(), usize::from(list.statements));
        } else {
            let written: Vec<u16> = (0..list.statements).collect();
            assert_eq!(scheduled.order, written, "{list:?}");
            assert!(Walk::random(&list, &mut rng).taken.len() < written.len());
        }
    }
}
