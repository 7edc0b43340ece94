use crate::points::{half_at, records_of, HEADER, RECORD};
use crate::Point;
use std::fmt;

/// How a point file that can be opened departs from working form, counted. Opening it drops all of this but the order.
///
/// ```
/// use mascon::{shapes, Departures};
///
/// let mut file = shapes::empty_file(4, [0.0; 3], [4.0; 3]);
/// file.extend([1, 2, 3]);
/// assert_eq!(Departures::of(&file).to_string(), "3 bytes after the records");
/// ```
#[derive(Clone, Copy, Debug, Default, PartialEq, Eq)]
pub struct Departures {
    /// Records that stand behind one of a later cell.
    pub out_of_order: usize,
    /// Pads that are not 0.
    pub pads: usize,
    /// Bytes after the records.
    pub trailing: usize,
}

impl Departures {
    /// Those of a file.
    pub fn of(bytes: &[u8]) -> Departures {
        let records = records_of(bytes);
        let cell = |record: usize| {
            let Point { x, y, z, .. } = Point::at(bytes, record);
            [z, y, x]
        };
        let behind = |&record: &usize| cell(record) < cell(record - 1);
        let padded = |&record: &usize| half_at(bytes, HEADER + RECORD * record + 6) != 0;
        Departures {
            out_of_order: (1..records).filter(behind).count(),
            pads: (0..records).filter(padded).count(),
            trailing: bytes.len().saturating_sub(HEADER + RECORD * records),
        }
    }

    /// What opening the file leaves out: all but the order.
    pub fn left_out(self) -> Departures {
        Departures {
            out_of_order: 0,
            ..self
        }
    }

    /// Whether there are none.
    pub fn is_empty(self) -> bool {
        self == Departures::default()
    }
}

impl fmt::Display for Departures {
    fn fmt(&self, f: &mut fmt::Formatter<'_>) -> fmt::Result {
        let parts = [
            (self.out_of_order, "record", "out of order"),
            (self.pads, "pad", "not 0"),
            (self.trailing, "byte", "after the records"),
        ];
        let mut between = "";
        for (count, one, which) in parts.into_iter().filter(|part| part.0 > 0) {
            let ending = if count == 1 { "" } else { "s" };
            write!(f, "{between}{count} {one}{ending} {which}")?;
            between = ", ";
        }
        if between.is_empty() {
            write!(f, "nothing")?;
        }
        Ok(())
    }
}
