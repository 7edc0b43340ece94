use crate::floats::{first_too_large, TreeFloat};
use crate::twice::{repeated, Twice};
use std::error::Error;
use std::fmt;

macro_rules! refusals {
    ($($(#[$doc:meta])* $name:ident = $number:literal, $cause:literal, $advice:literal;)*) => {
        /// Why a call was refused: the rules' number and cause.
        ///
        /// A refused call has changed nothing.
        ///
        /// ```
        /// use mascon::{Model, Refusal};
        ///
        /// let refusal = Model::open(b"short").unwrap_err().refusal;
        /// assert_eq!(refusal, Refusal::FileTooShort);
        /// assert_eq!(refusal.number(), 1);
        /// assert_eq!(refusal.to_string(), "refused 1: file under 64 bytes");
        /// ```
        #[derive(Clone, Copy, PartialEq, Eq, PartialOrd, Ord, Hash)]
        #[non_exhaustive]
        pub enum Refusal {
            $(
                #[doc = concat!($number, ": ", $cause, ".")]
                $(#[$doc])*
                $name,
            )*
            /// A number that this crate does not know: the library is a later one.
            Unknown(u64),
        }

        impl Refusal {
            /// Every cause, ascending by number.
            pub const ALL: &'static [Refusal] = &[$(Refusal::$name),*];

            /// The number that the rules give the cause.
            pub const fn number(self) -> u64 {
                match self {
                    $(Refusal::$name => $number,)*
                    Refusal::Unknown(number) => number,
                }
            }

            /// The variant's name.
            pub const fn name(self) -> &'static str {
                match self {
                    $(Refusal::$name => stringify!($name),)*
                    Refusal::Unknown(_) => "Unknown",
                }
            }

            /// The cause in words.
            pub const fn words(self) -> &'static str {
                match self {
                    $(Refusal::$name => $cause,)*
                    Refusal::Unknown(_) => "a cause that this crate does not know",
                }
            }

            /// What to do about it.
            pub const fn advice(self) -> &'static str {
                match self {
                    $(Refusal::$name => $advice,)*
                    Refusal::Unknown(_) => "libmascon.a is later than this crate: take both from one source",
                }
            }
        }
    };
}

refusals! {
    FileTooShort = 1, "file under 64 bytes",
        "the file is cut off or is no point file: take it from its source again";
    NotPointFile = 2, "word 0 or version wrong",
        "this is no RYM1 point file of version 1: a tree (RTM1) cannot be opened, only its point file";
    GridOutOfRange = 3, "grid is 0 or above 256",
        "choose a grid from 1 to 256";
    RecordsMissing = 4, "fewer records than the header counts",
        "the file is cut off: take it from its source again";
    BadHeaderFloat = 5, "a header float is not finite, or box min is not below max on an axis",
        "write density, cell volume, scale and box anew; `mascon check` names the field";
    CoordinateOutOfGrid = 6, "a coordinate at or above the grid",
        "cells run from 0 to grid - 1 on each axis; in a file, `mascon check` names the record";
    MassNotFinite = 7, "a mass that is not finite",
        "give masses that binary32 can hold, below 3.4e38 in magnitude; in a file, `mascon check` names the record";
    /// This crate lends enough, so that it is not seen.
    ScratchTooShort = 8, "scratch too short",
        "lend, to build a file in working form, 2 × ceil(grid³ / 32) words (`Cost::of` has the bytes); to build any other, to open or to fold, grid³ words; to fill or for a point, one float for each triangle; this crate does so by itself";
    /// This crate lends enough, so that it is not seen.
    OutputTooShort = 9, "output too short",
        "lend a longer output, for a tree what `Cost::of` answers for its grid; this crate does so by itself";
    NotWorkingForm = 10, "not in working form",
        "open the file first, or fold it where it names a cell twice: edits take records ascending by cell, one for each cell, pad 0";
    BadJournal = 11, "journal without words, with wrong top bits or count, or with entries missing",
        "the journal is damaged: go on from the model without it, undo is lost";
    EmptyCell = 12, "the cell is empty",
        "there is nothing to remove: look at the cell with `mascon get` or `Model::get`, or at the model with `mascon draw`";
    /// Seen at 2^24 entries, or where memory is short.
    JournalFull = 13, "journal full",
        "2^24 edits stand in the journal: save the model and call `forget_entries`, or move the file MODEL.journal away";
    /// Seen where memory is short.
    NoRoom = 14, "no room for a new record",
        "memory is short: free some, the model is as it was";
    NothingToUndo = 15, "nothing to undo",
        "all edits since the model was opened are undone";
    BadLastEntry = 16, "an entry of the journal is malformed or does not fit its cell",
        "the journal is damaged or belongs to another model: go on without it, undo is lost";
    OutOfBounds = 17, "a list's length or a number outside its bounds",
        "1 to 2^20 triangles, up to 4,096 kernels a list; coordinates and centres up to 1e6 m, sigma 0 to 1e6, w, target mass and density up to 1e30, points up to 4e6 m, all of them numbers";
    TooManyPoints = 18, "more inside points than half the cells, rounded up",
        "the body fills more than half of its box (a cuboid does): widen the box (`mascon fill --widen`, `mesh::widening`), and check that the mesh is closed";
    FlatBox = 19, "box min is not below max after narrowing to binary32",
        "the mesh is flat, or too small for its distance from the origin: move it to the origin";
    NotFinite = 20, "a float to be written is not finite",
        "masses, density or cell volume pass 3.4e38, or kernels cancel so that the scale does: look at weights and target mass";
    CellTwice = 21, "two records name one cell",
        "fold the file (`mascon fold IN -o OUT`, `Model::fold`): the later record of a cell counts; `mascon check` names the records";
    FloatTooLarge = 22, "a float of the tree is too large",
        "masses of a node add up to 3.4e38 kg or more, or nearly cancel so that their centre lies that far away: make the heaviest ones smaller; `mascon check` names the nodes";
}

impl Refusal {
    /// The cause with this number.
    ///
    /// ```
    /// use mascon::Refusal;
    ///
    /// assert_eq!(Refusal::from_number(15), Some(Refusal::NothingToUndo));
    /// assert_eq!(Refusal::from_number(0), None);
    /// ```
    pub const fn from_number(number: u64) -> Option<Refusal> {
        if number == 0 || number > Self::ALL.len() as u64 {
            None
        } else {
            Some(Self::ALL[number as usize - 1])
        }
    }
}

impl fmt::Display for Refusal {
    fn fmt(&self, f: &mut fmt::Formatter<'_>) -> fmt::Result {
        write!(f, "refused {}: {}", self.number(), self.words())
    }
}

/// The words, so that `fn main() -> Result<(), Refusal>` shows them.
impl fmt::Debug for Refusal {
    fn fmt(&self, f: &mut fmt::Formatter<'_>) -> fmt::Result {
        fmt::Display::fmt(self, f)
    }
}

impl Error for Refusal {}

/// For callers whose errors are text, as the original's are.
impl From<Refusal> for String {
    fn from(refusal: Refusal) -> String {
        refusal.to_string()
    }
}

/// Why a point file was not opened or built: the refusal and, where two records name one cell (21), these; where a float of its tree is
/// too large (22), this one.
///
/// ```
/// use mascon::{shapes, Model, Refusal};
///
/// let mut file = shapes::empty_file(4, [0.0; 3], [4.0; 3]);
/// file[12] = 2;
/// file.extend([0; 32]);
/// let error = Model::open(&file).unwrap_err();
/// assert_eq!(error, Refusal::CellTwice);
/// assert_eq!(
///     error.to_string(),
///     "refused 21: two records name one cell: records 0 and 1 both name cell (0, 0, 0); fold the file to keep the later one"
/// );
/// ```
#[derive(Clone, Copy, PartialEq)]
pub struct OpenError {
    /// Why.
    pub refusal: Refusal,
    /// Of cause 21 the first record that names a cell again, and the one that names it first; else none.
    pub twice: Option<Twice>,
    /// Of cause 22 the first float in preorder that is too large; else none.
    pub too_large: Option<TreeFloat>,
}

impl OpenError {
    /// With the records or the float of the file that was refused.
    pub(crate) fn of(refusal: Refusal, file: &[u8]) -> OpenError {
        let of_cause = |cause: Refusal| (refusal == cause).then_some(file);
        OpenError {
            refusal,
            twice: of_cause(Refusal::CellTwice).and_then(|file| repeated(file).next()),
            too_large: of_cause(Refusal::FloatTooLarge).and_then(first_too_large),
        }
    }

    /// The same of what has this label.
    pub(crate) fn labelled(self, label: &str) -> Labelled {
        Labelled {
            label: label.to_string(),
            refusal: self.refusal,
            twice: self.twice,
            too_large: self.too_large,
        }
    }
}

impl fmt::Display for OpenError {
    fn fmt(&self, f: &mut fmt::Formatter<'_>) -> fmt::Result {
        write!(f, "{}", self.refusal)?;
        if let Some(twice) = self.twice {
            write!(f, ": {twice}; fold the file to keep the later one")?;
        }
        if let Some(float) = self.too_large {
            write!(f, ": {float}")?;
        }
        Ok(())
    }
}

/// In words, as it is displayed.
impl fmt::Debug for OpenError {
    fn fmt(&self, f: &mut fmt::Formatter<'_>) -> fmt::Result {
        fmt::Display::fmt(self, f)
    }
}

impl Error for OpenError {
    fn source(&self) -> Option<&(dyn Error + 'static)> {
        Some(&self.refusal)
    }
}

impl PartialEq<Refusal> for OpenError {
    fn eq(&self, refusal: &Refusal) -> bool {
        self.refusal == *refusal
    }
}

/// Without the records or the float.
impl From<OpenError> for Refusal {
    fn from(error: OpenError) -> Refusal {
        error.refusal
    }
}

impl From<OpenError> for String {
    fn from(error: OpenError) -> String {
        error.to_string()
    }
}

/// A refusal with the label of what was refused.
///
/// ```
/// let refused = mascon::parse_mascon_bytes(&[], "runtime Mascon source").unwrap_err();
/// assert_eq!(refused.to_string(), "runtime Mascon source: refused 1: file under 64 bytes");
/// ```
#[derive(Clone, PartialEq)]
pub struct Labelled {
    /// What was refused.
    pub label: String,
    /// Why.
    pub refusal: Refusal,
    /// As in [`OpenError`].
    pub twice: Option<Twice>,
    /// As in [`OpenError`].
    pub too_large: Option<TreeFloat>,
}

impl fmt::Display for Labelled {
    fn fmt(&self, f: &mut fmt::Formatter<'_>) -> fmt::Result {
        let error = OpenError {
            refusal: self.refusal,
            twice: self.twice,
            too_large: self.too_large,
        };
        write!(f, "{}: {error}", self.label)
    }
}

impl fmt::Debug for Labelled {
    fn fmt(&self, f: &mut fmt::Formatter<'_>) -> fmt::Result {
        fmt::Display::fmt(self, f)
    }
}

impl Error for Labelled {
    fn source(&self) -> Option<&(dyn Error + 'static)> {
        Some(&self.refusal)
    }
}

impl From<Labelled> for String {
    fn from(labelled: Labelled) -> String {
        labelled.to_string()
    }
}
