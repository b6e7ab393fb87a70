//! The C header and this crate say the same of lengths and records.

use nokchbem::{Definition, TABLES_LENGTH, WORK_LENGTH};

const HEADER: &str = include_str!("../../../include/nokchbem.h");

#[test]
fn lengths_are_the_same() {
    for (name, length) in [("TABLES", TABLES_LENGTH), ("WORK", WORK_LENGTH)] {
        let line = format!("\n#define NOKCHBEM_{name}_LENGTH {length}\n");
        assert!(HEADER.contains(&line), "{line}");
    }
    assert_eq!((TABLES_LENGTH, WORK_LENGTH), (8_192, 24_576));
}

#[test]
fn a_record_is_the_same() {
    let fields = "{\n    uint16_t statement;\n    uint16_t name;\n    uint64_t used[8];\n}";
    assert!(HEADER.contains(fields));
    let Definition {
        statement: _,
        name: _,
        used,
    } = Definition::default();
    assert_eq!(used.len(), 8);
    assert_eq!(size_of::<Definition>(), 8 + size_of_val(&used));
}
