//! Stand-in for `toml`: numbers, lists of three numbers on one line, and lists of tables (`[[name]]`), as the original's kernels are written.

use std::collections::HashMap;
use std::fmt;

pub type Table = HashMap<String, Value>;

pub enum Value {
    Number(f64),
    Three([f64; 3]),
    Tables(Vec<Table>),
}

pub struct Error(String);

impl fmt::Display for Error {
    fn fmt(&self, f: &mut fmt::Formatter<'_>) -> fmt::Result {
        f.write_str(&self.0)
    }
}

/// A struct that a table holds.
pub trait Read: Sized {
    fn read(table: &Table) -> Result<Self, Error>;
}

/// A field that a value holds.
pub trait Field: Sized {
    fn field(value: &Value) -> Result<Self, Error>;
}

fn other<T>() -> Result<T, Error> {
    Err(Error("a value of another kind".into()))
}

impl Field for f64 {
    fn field(value: &Value) -> Result<Self, Error> {
        match value {
            Value::Number(number) => Ok(*number),
            _ => other(),
        }
    }
}

impl Field for [f64; 3] {
    fn field(value: &Value) -> Result<Self, Error> {
        match value {
            Value::Three(numbers) => Ok(*numbers),
            _ => other(),
        }
    }
}

impl<T: Field> Field for Option<T> {
    fn field(value: &Value) -> Result<Self, Error> {
        T::field(value).map(Some)
    }
}

impl<T: Read> Field for Vec<T> {
    fn field(value: &Value) -> Result<Self, Error> {
        match value {
            Value::Tables(tables) => tables.iter().map(T::read).collect(),
            _ => other(),
        }
    }
}

pub fn required<T: Field>(table: &Table, name: &str) -> Result<T, Error> {
    let missing = || Error(format!("missing: {name}"));
    T::field(table.get(name).ok_or_else(missing)?)
}

pub fn optional<T: Field>(
    table: &Table,
    name: &str,
    without: impl FnOnce() -> T,
) -> Result<T, Error> {
    table.get(name).map_or_else(|| Ok(without()), T::field)
}

pub fn from_str<T: Read>(text: &str) -> Result<T, Error> {
    let mut whole = Table::new();
    let mut open: Option<String> = None;
    for line in text.lines() {
        let line = line.split('#').next().unwrap_or_default().trim();
        if let Some(name) = line
            .strip_prefix("[[")
            .and_then(|rest| rest.strip_suffix("]]"))
        {
            let list = whole.entry(name.to_string());
            if let Value::Tables(tables) = list.or_insert_with(|| Value::Tables(Vec::new())) {
                tables.push(Table::new());
            }
            open = Some(name.to_string());
        } else if !line.is_empty() {
            let (name, value) = entry(line)?;
            let table = match open.as_ref().map(|name| whole.get_mut(name)) {
                Some(Some(Value::Tables(tables))) => tables.last_mut(),
                _ => Some(&mut whole),
            };
            table.expect("the table last opened").insert(name, value);
        }
    }
    T::read(&whole)
}

/// `name = 1.5` or `name = [1.0, 2.0, 3.0]`.
fn entry(line: &str) -> Result<(String, Value), Error> {
    let wrong = || Error(format!("`{line}` is not read here"));
    let (name, value) = line.split_once('=').ok_or_else(wrong)?;
    let number = |word: &str| word.trim().parse::<f64>().map_err(|_| wrong());
    let list = value.trim().strip_prefix('[');
    let value = match list.and_then(|rest| rest.strip_suffix(']')) {
        None => Value::Number(number(value)?),
        Some(list) => {
            let numbers: Vec<f64> = list.split(',').map(number).collect::<Result<_, _>>()?;
            Value::Three(numbers.try_into().map_err(|_| wrong())?)
        }
    };
    Ok((name.trim().to_string(), value))
}
