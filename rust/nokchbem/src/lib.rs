//! The proved library, called through its C interface.
//!
//! The exported functions demand nothing of their arguments beyond what a Rust slice is, so these
//! wrappers are safe as they stand.

mod refusal;

pub use refusal::Refusal;

/// A definition as a record: a statement, the name that it defines (0 is the empty one, at most 511),
/// and the set of names that it uses (name n is bit n % 64 of word n / 64).
#[repr(C)]
#[derive(Clone, Copy, Debug, Default, PartialEq, Eq)]
pub struct Definition {
    pub statement: u16,
    pub name: u16,
    pub used: [u64; 8],
}

extern "C" {
    fn nokchbem_schedule(
        definitions: *const u64,
        definitions_len: usize,
        statements: usize,
        order: *mut u16,
        order_len: usize,
        reached: *mut u16,
        reached_len: usize,
    ) -> u64;

    fn nokchbem_schedule_records(
        records: *const Definition,
        records_len: usize,
        statements: usize,
        order: *mut u16,
        order_len: usize,
        reached: *mut u16,
        reached_len: usize,
    ) -> u64;

    fn nokchbem_read(
        sheet: *const u8,
        sheet_len: usize,
        tables: *mut u16,
        tables_len: usize,
        work: *mut u64,
        work_len: usize,
    ) -> u64;

    fn nokchbem_analyze(
        sheet: *const u8,
        sheet_len: usize,
        tables: *mut u16,
        tables_len: usize,
        work: *mut u64,
        work_len: usize,
        answer: *mut u8,
        answer_len: usize,
    ) -> u64;
}

/// Puts statements into an order in which every name has a value when it is read.
///
/// `definitions` are rows of ten words: statement, name (0 is the empty one, at most 511), and the
/// eight words of the set of used names. `order` receives the statements in order and `reached` a
/// mark for each, 1 or 0; both hold zeros after the first `statements` entries. Answers whether all
/// statements were placed; where not, the order is the written one. A refusal (8) leaves zeros in
/// both buffers.
pub fn schedule(
    definitions: &[u64],
    statements: usize,
    order: &mut [u16],
    reached: &mut [u16],
) -> Result<bool, Refusal> {
    // SAFETY: each pointer and length are one slice's, and the two written ones are exclusive.
    let result = unsafe {
        nokchbem_schedule(
            definitions.as_ptr(),
            definitions.len(),
            statements,
            order.as_mut_ptr(),
            order.len(),
            reached.as_mut_ptr(),
            reached.len(),
        )
    };
    placed(result)
}

/// As [`schedule`], but the definitions are records: answers and leaves what that does for their
/// rows.
pub fn schedule_records(
    records: &[Definition],
    statements: usize,
    order: &mut [u16],
    reached: &mut [u16],
) -> Result<bool, Refusal> {
    // SAFETY: as in `schedule`; a `Definition` is laid out as the library's own.
    let result = unsafe {
        nokchbem_schedule_records(
            records.as_ptr(),
            records.len(),
            statements,
            order.as_mut_ptr(),
            order.len(),
            reached.as_mut_ptr(),
            reached.len(),
        )
    };
    placed(result)
}

/// The mark placed, or a refusal: what both scheduler's calls return.
fn placed(result: u64) -> Result<bool, Refusal> {
    match result {
        0 => Ok(false),
        1 => Ok(true),
        packed => Err(Refusal::unpack(packed)),
    }
}

/// How many entries [`read`] and [`analyze`] want at least, in the tables and in work.
pub const TABLES_LENGTH: usize = 8_192;
pub const WORK_LENGTH: usize = 24_576;

/// Reads a sheet into tables, and asks whether all of it is as it should be.
///
/// The tables start with how many names, built-ins, expressions, statements and queries there are,
/// and the rows of the names `_`, `input` and `data`, 0 for one that is not there. Row r of a
/// section, counted from 1, stands at 8 + 4r (built-ins), 268 + 8r (expressions), 4372 + 7r
/// (statements) or 5275 + r (queries); every other entry is 0.
///
/// Refuses with the first of these numbers that applies: 1, `tables` has fewer than 8,192 entries or
/// `work` fewer than 24,576; 2, the sheet has more than 32,768 bytes; 3, its form; 4, its names; 5,
/// its counts (at most 511 names); 6, its fields and nesting. The line is the first at fault, 0 for
/// 1 and 2. A refusal leaves zeros in the tables; `work` is zeros afterwards in any case.
pub fn read(sheet: &[u8], tables: &mut [u16], work: &mut [u64]) -> Result<(), Refusal> {
    // SAFETY: each pointer and length are one slice's, and the two written ones are exclusive.
    let result = unsafe {
        nokchbem_read(
            sheet.as_ptr(),
            sheet.len(),
            tables.as_mut_ptr(),
            tables.len(),
            work.as_mut_ptr(),
            work.len(),
        )
    };
    match result {
        0 => Ok(()),
        packed => Err(Refusal::unpack(packed)),
    }
}

/// Analyses the queries of a sheet: which names each has, and in which order its statements can run.
///
/// `answer` receives a text, and zeros behind it; answers how long the text is. It has three
/// sections, each a line of names, a line of decimal values for each row, and an empty line:
/// `query placed input`, `query place index reached` and `query set name line col`.
///
/// Refuses with the first of these numbers that applies: 1 to 6 as [`read`] does, with the line of
/// the sheet; 11, an undefined variable; 12, a variable used before its definition; 13, arrays whose
/// lengths differ; 14, an index variable inside a some-in pattern; 7, the text is longer than
/// `answer`. With 11 to 13 the position is that of the variable, the use or the right-hand array in
/// the query. A refusal leaves zeros in `answer`; `tables` and `work` are zeros afterwards in any
/// case.
///
/// ```
/// // `y = x` above `x = 1`.
/// let sheet = b"name\nx\ny\n\narity first second third\n\n\
///     kind name line col first second third next\n\
///     20 0 1 1 2 3 0 0\n6 2 1 1 0 0 0 0\n6 1 1 5 0 0 0 0\n\
///     20 0 2 1 5 6 0 0\n6 1 2 1 0 0 0 0\n3 0 2 5 0 0 0 0\n\n\
///     form first second third query with next\n3 1 0 0 0 0 2\n3 4 0 0 0 0 0\n\n\
///     statement\n1\n\n";
/// let mut tables = vec![0; nokchbem::TABLES_LENGTH];
/// let mut work = vec![0; nokchbem::WORK_LENGTH];
/// let mut answer = [0; 200];
/// let length = nokchbem::analyze(sheet, &mut tables, &mut work, &mut answer)?;
/// let text = b"query placed input\n1 1 0\n\n\
///     query place index reached\n1 0 1 1\n1 1 0 1\n\n\
///     query set name line col\n1 2 1 0 0\n1 2 2 0 0\n\n";
/// assert_eq!(&answer[..length], text);
/// # Ok::<(), nokchbem::Refusal>(())
/// ```
pub fn analyze(
    sheet: &[u8],
    tables: &mut [u16],
    work: &mut [u64],
    answer: &mut [u8],
) -> Result<usize, Refusal> {
    // SAFETY: each pointer and length are one slice's, and the three written ones are exclusive.
    let result = unsafe {
        nokchbem_analyze(
            sheet.as_ptr(),
            sheet.len(),
            tables.as_mut_ptr(),
            tables.len(),
            work.as_mut_ptr(),
            work.len(),
            answer.as_mut_ptr(),
            answer.len(),
        )
    };
    match result {
        // No byte of the text is 0.
        0 => Ok(answer.iter().position(|&b| b == 0).unwrap_or(answer.len())),
        packed => Err(Refusal::unpack(packed)),
    }
}
