//! The proved scheduler, by both of its calls, and the original's `schedule` on the same lists.

use nokchbem::{Definition, Refusal};
use oracle::NotAtHand;
use sheets::lists::{List, Scheduled, ROW};
use sheets::rng::Rng;

/// What a buffer holds before a call: a contract says what it holds after, whatever stood there.
const JUNK: u16 = 0xABCD;

/// The rows as records: none where they are not whole, or where a statement or a name is more than a
/// record holds.
pub fn records(rows: &[u64]) -> Option<Vec<Definition>> {
    let record = |row: &[u64]| match *row {
        [statement, name, ref used @ ..] => Some(Definition {
            statement: statement.try_into().ok()?,
            name: name.try_into().ok()?,
            used: used.try_into().ok()?,
        }),
        _ => None,
    };
    rows.chunks(ROW).map(record).collect()
}

/// The flat call, and the call over records wherever the rows can be records.
///
/// # Panics
/// Where the two do not return and leave the same.
pub fn both_calls(
    rows: &[u64],
    statements: usize,
    order: &mut [u16],
    reached: &mut [u16],
) -> Result<bool, Refusal> {
    let (mut other_order, mut other_reached) = (order.to_vec(), reached.to_vec());
    let result = nokchbem::schedule(rows, statements, order, reached);
    if let Some(records) = records(rows) {
        let other =
            nokchbem::schedule_records(&records, statements, &mut other_order, &mut other_reached);
        let equal = other == result && other_order == order && other_reached == reached;
        assert!(equal, "{other:?} is not {result:?}, or the buffers differ: {statements} statements, {records:?}");
    }
    result
}

/// The proved scheduler's answer, by both calls, from buffers that are longer than needed and full of junk.
///
/// # Panics
/// Where the calls differ, refuse the list, or leave something but zeros after the last entry.
pub fn schedule(list: &List) -> Scheduled {
    let count = usize::from(list.statements);
    let (mut order, mut reached) = (vec![JUNK; count + 3], vec![JUNK; count + 2]);
    let placed = both_calls(&list.rows(), count, &mut order, &mut reached)
        .unwrap_or_else(|refusal| panic!("{refusal}: {list:?}"));
    assert_eq!(order.split_off(count), [0; 3], "zeros after the order");
    assert_eq!(reached.split_off(count), [0; 2], "zeros after the marks");
    assert!(reached.iter().all(|&mark| mark <= 1), "marks are 0 or 1");
    Scheduled {
        placed,
        order,
        reached: reached.iter().map(|&mark| mark == 1).collect(),
    }
}

/// Compares on random lists.
///
/// # Panics
/// At the first difference.
pub fn compare_random(seed: u64, count: usize) -> Result<Compared, NotAtHand> {
    let mut rng = Rng::new(seed);
    let mut compared = Compared::default();
    for _ in 0..count {
        compared.add(&List::random(&mut rng))?;
    }
    Ok(compared)
}

/// Compares on every list of up to three statements over two names and the empty one, with up to
/// so many definitions.
///
/// # Panics
/// At the first difference.
pub fn compare_small(definitions: usize) -> Result<Compared, NotAtHand> {
    let mut compared = Compared::default();
    let mut missing = Ok(());
    List::small(definitions, |list| {
        if missing.is_ok() {
            missing = compared.add(list);
        }
    });
    missing.map(|()| compared)
}

/// How many lists were compared.
#[derive(Clone, Copy, Debug, Default)]
pub struct Compared {
    pub lists: usize,
    pub placed: usize,
}

impl Compared {
    fn add(&mut self, list: &List) -> Result<(), NotAtHand> {
        let original = oracle::schedule(list)?;
        assert_eq!(schedule(list), original, "{list:?}");
        self.lists += 1;
        self.placed += usize::from(original.placed);
        Ok(())
    }
}
