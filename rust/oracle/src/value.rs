//! Stand-in for the original's `Value`, whose file builds on a serialisation library and four
//! files that are not listed. The analysis reads one thing of a value: the text of a `String`.

use std::fmt;
use std::rc::Rc;

#[derive(Clone, Debug)]
pub enum Value {
    Null,
    String(Rc<str>),
    Undefined,
}

impl Value {
    pub fn as_string(&self) -> anyhow::Result<&Rc<str>> {
        match self {
            Value::String(text) => Ok(text),
            _ => anyhow::bail!("not a string"),
        }
    }

    /// The text quoted. A path with a quoted part is no built-in's, however it is quoted.
    pub fn to_json_str(&self) -> anyhow::Result<String> {
        Ok(format!("{:?}", self.as_string()?))
    }
}

impl From<&str> for Value {
    fn from(text: &str) -> Value {
        Value::String(text.into())
    }
}

impl fmt::Display for Value {
    fn fmt(&self, f: &mut fmt::Formatter<'_>) -> fmt::Result {
        match self {
            Value::Null => f.write_str("null"),
            Value::String(text) => write!(f, "{text:?}"),
            Value::Undefined => f.write_str("<undefined>"),
        }
    }
}
