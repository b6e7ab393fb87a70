//! A query sheet as rows, and its text.

use std::fmt::Write;

/// The limits of a sheet, as the specification lists them.
pub mod limits {
    /// What the two programs differ in: how many names a sheet may have, and how many words of work
    /// question 1 asks for.
    #[derive(Clone, Copy, Debug, PartialEq, Eq)]
    pub struct Limits {
        pub names: usize,
        pub work: usize,
    }

    /// Every exported call has these.
    pub const LIBRARY: Limits = Limits {
        names: 511,
        work: 24_576,
    };
    /// The printing program keeps these.
    pub const PRINTING: Limits = Limits {
        names: 127,
        work: 8_192,
    };

    /// How many entries of the tables question 1 asks for.
    pub const TABLES: usize = 8_192;
    pub const BYTES: usize = 32_768;
    pub const NAME_BYTES: usize = 32;
    pub const BUILTINS: usize = 64;
    pub const ARITY: u16 = 255;
    pub const EXPRESSIONS: usize = 512;
    pub const STATEMENTS: usize = 128;
    pub const QUERIES: usize = 32;
    pub const NESTING: usize = 8;
    /// Definitions that one query can record: one for each expression row and each statement.
    pub const DEFINITIONS: usize = EXPRESSIONS + STATEMENTS;
}

/// The headings of the five sections, in order.
pub const HEADINGS: [&str; 5] = [
    "name",
    "arity first second third",
    "kind name line col first second third next",
    "form first second third query with next",
    "statement",
];

macro_rules! numbered {
    ($(#[$doc:meta])* $name:ident { $($variant:ident = $number:literal,)* }) => {
        $(#[$doc])*
        #[derive(Clone, Copy, Debug, PartialEq, Eq, PartialOrd, Ord, Hash)]
        #[repr(u16)]
        pub enum $name { $($variant = $number,)* }

        impl $name {
            pub const ALL: &'static [$name] = &[$($name::$variant,)*];

            pub fn from_number(number: u16) -> Option<$name> {
                match number {
                    $($number => Some($name::$variant),)*
                    _ => None,
                }
            }
        }
    };
}

numbered! {
    /// The kinds of an expression row. `AssignExpr` stands twice, once for each operator.
    Kind {
        String = 1,
        RawString = 2,
        Number = 3,
        Bool = 4,
        Null = 5,
        Var = 6,
        Array = 7,
        Set = 8,
        Object = 9,
        ArrayCompr = 10,
        SetCompr = 11,
        ObjectCompr = 12,
        Call = 13,
        UnaryExpr = 14,
        RefDot = 15,
        RefBrack = 16,
        BinExpr = 17,
        BoolExpr = 18,
        ArithExpr = 19,
        AssignEq = 20,
        AssignColEq = 21,
        Membership = 22,
    }
}

numbered! {
    /// The forms of a statement row.
    Form {
        SomeVars = 1,
        SomeIn = 2,
        Expr = 3,
        NotExpr = 4,
        Every = 5,
    }
}

/// A built-in function: its arity, and its dotted path as name rows (0 after the last).
#[derive(Clone, Copy, Debug, Default, PartialEq, Eq)]
pub struct BuiltinRow {
    pub arity: u16,
    pub path: [u16; 3],
}

#[derive(Clone, Copy, Debug, Default, PartialEq, Eq)]
pub struct ExprRow {
    pub kind: u16,
    pub name: u16,
    pub line: u16,
    pub col: u16,
    pub first: u16,
    pub second: u16,
    pub third: u16,
    pub next: u16,
}

#[derive(Clone, Copy, Debug, Default, PartialEq, Eq)]
pub struct StatementRow {
    pub form: u16,
    pub first: u16,
    pub second: u16,
    pub third: u16,
    pub query: u16,
    pub with: u16,
    pub next: u16,
}

impl BuiltinRow {
    pub const FIELDS: usize = 4;

    pub fn values(&self) -> [u16; Self::FIELDS] {
        [self.arity, self.path[0], self.path[1], self.path[2]]
    }

    pub fn from_values(v: [u16; Self::FIELDS]) -> Self {
        BuiltinRow {
            arity: v[0],
            path: [v[1], v[2], v[3]],
        }
    }
}

impl ExprRow {
    pub const FIELDS: usize = 8;

    pub fn values(&self) -> [u16; Self::FIELDS] {
        [
            self.kind,
            self.name,
            self.line,
            self.col,
            self.first,
            self.second,
            self.third,
            self.next,
        ]
    }

    pub fn from_values(v: [u16; Self::FIELDS]) -> Self {
        let [kind, name, line, col, first, second, third, next] = v;
        ExprRow {
            kind,
            name,
            line,
            col,
            first,
            second,
            third,
            next,
        }
    }
}

impl StatementRow {
    pub const FIELDS: usize = 7;

    pub fn values(&self) -> [u16; Self::FIELDS] {
        [
            self.form,
            self.first,
            self.second,
            self.third,
            self.query,
            self.with,
            self.next,
        ]
    }

    pub fn from_values(v: [u16; Self::FIELDS]) -> Self {
        let [form, first, second, third, query, with, next] = v;
        StatementRow {
            form,
            first,
            second,
            third,
            query,
            with,
            next,
        }
    }
}

/// The five sections. Rows count from 1, so row `r` stands at index `r - 1`.
#[derive(Clone, Debug, Default, PartialEq, Eq)]
pub struct Sheet {
    pub names: Vec<String>,
    pub builtins: Vec<BuiltinRow>,
    pub exprs: Vec<ExprRow>,
    pub statements: Vec<StatementRow>,
    /// A query is given by its first statement, or 0.
    pub queries: Vec<u16>,
}

impl Sheet {
    /// The row of a name, or 0 for the empty text.
    ///
    /// # Panics
    /// Where the sheet does not list the name.
    pub fn name_row(&self, name: &str) -> u16 {
        if name.is_empty() {
            return 0;
        }
        let index = self
            .names
            .iter()
            .position(|n| n == name)
            .unwrap_or_else(|| panic!("the sheet has no name `{name}`"));
        index as u16 + 1
    }

    /// The text of the sheet: five sections, each a heading, rows and an empty line.
    pub fn text(&self) -> String {
        let mut text = String::new();
        let rows: [Vec<String>; 5] = [
            self.names.clone(),
            self.builtins.iter().map(|r| row(&r.values())).collect(),
            self.exprs.iter().map(|r| row(&r.values())).collect(),
            self.statements.iter().map(|r| row(&r.values())).collect(),
            self.queries.iter().map(|&first| row(&[first])).collect(),
        ];
        for (heading, rows) in HEADINGS.iter().zip(rows) {
            let _ = writeln!(text, "{heading}");
            for row in rows {
                let _ = writeln!(text, "{row}");
            }
            text.push('\n');
        }
        text
    }
}

/// Values in decimal, one space between.
pub fn row(values: &[u16]) -> String {
    let fields: Vec<String> = values.iter().map(u16::to_string).collect();
    fields.join(" ")
}
