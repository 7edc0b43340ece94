//! Meshes, kernels and edits as text, with the line of what is wrong.

use crate::fill::{MAX_COORDINATE, MAX_KERNELS, MAX_SIGMA, MAX_TRIANGLES, MAX_WEIGHT};
use crate::{ffi, mesh, Kernel, Model, Refusal, Triangle};
use std::collections::HashMap;
use std::fmt;

/// What is wrong in a text, and in which line, from 1.
#[derive(Clone, PartialEq, Eq)]
pub struct LineError {
    /// The line, from 1; 0 of the text as a whole.
    pub line: usize,
    /// What is wrong.
    pub why: String,
}

impl fmt::Display for LineError {
    fn fmt(&self, f: &mut fmt::Formatter<'_>) -> fmt::Result {
        match self.line {
            0 => write!(f, "{}", self.why),
            line => write!(f, "line {line}: {}", self.why),
        }
    }
}

impl fmt::Debug for LineError {
    fn fmt(&self, f: &mut fmt::Formatter<'_>) -> fmt::Result {
        fmt::Display::fmt(self, f)
    }
}

impl std::error::Error for LineError {}

fn wrong<T>(line: usize, why: impl Into<String>) -> Result<T, LineError> {
    let why = why.into();
    Err(LineError { line, why })
}

/// The words of each line, with its number from 1; `#` begins a comment. A mark of the byte order before the first is no word.
fn lines(text: &str) -> impl Iterator<Item = (usize, Vec<&str>)> {
    let text = text.strip_prefix('\u{feff}').unwrap_or(text);
    text.lines().enumerate().map(|(at, line)| {
        let line = line.split('#').next().unwrap_or_default();
        (at + 1, line.split_whitespace().collect())
    })
}

const ONLY: &str = "only OBJ meshes and lists of `x y z sigma w` are read";

/// How files of other kinds begin.
const BEGINNINGS: [(&[u8], &str); 7] = [
    (b"glTF", "a GLB file (binary glTF)"),
    (b"ply\n", "a PLY mesh"),
    (b"ply\r", "a PLY mesh"),
    (b"RYM1", "a point file (RYM1)"),
    (b"RTM1", "a tree (RTM1)"),
    (b"PK\x03\x04", "a ZIP archive"),
    (b"\x1f\x8b", "compressed (gzip)"),
];

/// Judges whether a file can be an OBJ mesh or a list, by its bytes: not STL, GLB, glTF, PLY, TOML or another that is binary.
///
/// ```
/// let error = mascon::text::judge_kind(b"solid ball\nfacet normal 0 0 1\n").unwrap_err();
/// assert!(error.to_string().starts_with("this is an STL mesh (text): only OBJ meshes"));
/// ```
///
/// # Errors
/// What it is.
pub fn judge_kind(bytes: &[u8]) -> Result<(), LineError> {
    let begins = |(beginning, _): &&(&[u8], _)| bytes.starts_with(beginning);
    let kind = if is_binary_stl(bytes) {
        "a binary STL mesh"
    } else if let Some((_, kind)) = BEGINNINGS.iter().find(begins) {
        kind
    } else if bytes.contains(&0) {
        "binary, or text in UTF-16"
    } else {
        let text = String::from_utf8_lossy(&bytes[..bytes.len().min(1 << 16)]);
        let first = lines(&text).find(|(_, words)| !words.is_empty());
        match first.map(|(_, words)| words).as_deref() {
            Some(["solid", ..]) => "an STL mesh (text)",
            Some([first, ..]) if first.starts_with('{') => "JSON, as glTF is",
            Some([first, ..]) if first.starts_with('[') || first.contains('=') => "TOML",
            Some([_, second, ..]) if second.starts_with('=') => "TOML",
            _ => return Ok(()),
        }
    };
    wrong(0, format!("this is {kind}: {ONLY}"))
}

/// A header of 80 bytes, a count, and 50 bytes for each triangle.
fn is_binary_stl(bytes: &[u8]) -> bool {
    let count = bytes.get(80..84).and_then(|count| count.try_into().ok());
    count.is_some_and(|count| 84 + 50 * u64::from(u32::from_le_bytes(count)) == bytes.len() as u64)
}

/// A mesh read from text.
#[derive(Clone, Debug)]
pub struct Mesh {
    /// Its triangles; a face with more corners is a fan of them.
    pub triangles: Vec<Triangle>,
    /// How many corners the text lists.
    pub vertices: usize,
    /// How many edges belong to an odd number of triangles: 0 of a closed mesh. A ray may slip through an open one.
    pub open_edges: usize,
    /// Keywords that were passed over, each with its first line.
    pub ignored: Vec<(String, usize)>,
}

const PASSED_OVER: [&str; 18] = [
    "vn",
    "vt",
    "vp",
    "g",
    "o",
    "s",
    "l",
    "p",
    "usemtl",
    "mtllib",
    "mg",
    "lod",
    "bevel",
    "c_interp",
    "d_interp",
    "shadow_obj",
    "trace_obj",
    "usemap",
];

fn number(line: usize, word: &str) -> Result<f64, LineError> {
    match word.parse::<f64>() {
        Ok(number) if number.is_finite() => Ok(number),
        Ok(_) => wrong(line, format!("`{word}` is not a finite number")),
        Err(_) => wrong(line, format!("`{word}` is not a number")),
    }
}

/// What has been read of a mesh.
#[derive(Default)]
struct Reader {
    corners: Vec<[f64; 3]>,
    triangles: Vec<Triangle>,
}

impl Reader {
    fn corner(&mut self, line: usize, words: &[&str], scale: f64) -> Result<(), LineError> {
        let Some(words) = words.get(..3) else {
            let why = format!("a corner has x, y and z, here are {} numbers", words.len());
            return wrong(line, why);
        };
        let mut corner = [0.0; 3];
        for (x, word) in corner.iter_mut().zip(words) {
            *x = number(line, word)? * scale;
            if x.abs() > MAX_COORDINATE {
                let why = format!("`{word}`: coordinates go up to 1e6 m, this is {x} m");
                return wrong(line, why);
            }
        }
        self.corners.push(corner);
        Ok(())
    }

    /// A face as a fan of triangles.
    fn face(&mut self, line: usize, words: &[&str]) -> Result<(), LineError> {
        if words.len() < 3 {
            let why = format!("a face has three corners or more, here are {}", words.len());
            return wrong(line, why);
        }
        let mut corners = Vec::with_capacity(words.len());
        for word in words {
            corners.push(index(line, word, self.corners.len())?);
        }
        for two in corners[1..].windows(2) {
            let [a, b, c] = [corners[0], two[0], two[1]].map(|corner| self.corners[corner]);
            self.triangles.push(Triangle { a, b, c });
        }
        if self.triangles.len() > MAX_TRIANGLES {
            return wrong(line, "more than 2^20 triangles");
        }
        Ok(())
    }
}

/// Reads a mesh in Wavefront OBJ: `v` and `f` lines, the corners of `f` as `1`, `1/2`, `1//3` or `1/2/3`, from 1 or, negative, from the
/// last; `scale` multiplies every coordinate (1000 for a mesh in kilometres). A line that ends in `\` goes on in the next.
///
/// ```
/// use mascon::text::parse_obj;
///
/// let mesh = parse_obj("v 0 0 0\nv 1 0 0\nv 0 1 0\nv 0 0 1\nf 1 3 2\nf 1 2 4\nf 1/1 4/2 3/3\nf -3 -2 -1\n", 1.0)?;
/// assert_eq!((mesh.triangles.len(), mesh.open_edges), (4, 0));
/// assert_eq!(parse_obj("v 0 0 nan", 1.0).unwrap_err().to_string(), "line 1: `nan` is not a finite number");
/// # Ok::<(), mascon::text::LineError>(())
/// ```
///
/// # Errors
/// The first line that is wrong.
pub fn parse_obj(text: &str, scale: f64) -> Result<Mesh, LineError> {
    ffi::in_default_mode(|| obj(text, scale))
}

fn obj(text: &str, scale: f64) -> Result<Mesh, LineError> {
    judge_kind(text.as_bytes())?;
    let mut reader = Reader::default();
    let mut ignored: Vec<(String, usize)> = Vec::new();
    let mut lines = lines(text);
    while let Some((line, mut words)) = lines.next() {
        while let Some(rest) = words.last().and_then(|word| word.strip_suffix('\\')) {
            words.pop();
            words.extend((!rest.is_empty()).then_some(rest));
            let Some((_, more)) = lines.next() else { break };
            words.extend(more);
        }
        match words.split_first() {
            None => {}
            Some((&"v", words)) => reader.corner(line, words, scale)?,
            Some((&"f", words)) => reader.face(line, words)?,
            Some((other, _)) if PASSED_OVER.contains(other) => {}
            Some((&other, _)) if ignored.iter().any(|(word, _)| word == other) => {}
            Some((&other, _)) => ignored.push((other.to_string(), line)),
        }
    }
    if reader.triangles.is_empty() {
        let corners = reader.corners.len();
        let why = format!("no face (`f` line) in it, {corners} corners (`v` lines)");
        return wrong(0, why);
    }
    Ok(Mesh {
        open_edges: mesh::open_edges(&reader.triangles),
        triangles: reader.triangles,
        vertices: reader.corners.len(),
        ignored,
    })
}

/// A corner's place, from 0, by the first part of a word such as `3`, `3/1`, `3//2` or `-1`.
fn index(line: usize, word: &str, vertices: usize) -> Result<usize, LineError> {
    let first = word.split('/').next().unwrap_or_default();
    let Ok(index) = first.parse::<i64>() else {
        return wrong(line, format!("`{word}` is not a corner's index"));
    };
    let place = if index < 0 {
        vertices as i64 + index
    } else {
        index - 1
    };
    if index == 0 || !(0..vertices as i64).contains(&place) {
        return wrong(
            line,
            format!("corner {index} is not among the {vertices} listed so far"),
        );
    }
    Ok(place as usize)
}

/// A mesh as OBJ text.
pub fn write_obj(triangles: &[Triangle]) -> String {
    use fmt::Write as _;
    let mut places: HashMap<[u64; 3], usize> = HashMap::new();
    let (mut corners, mut faces) = (String::new(), String::new());
    for triangle in triangles {
        let mut face = String::from("f");
        for corner in [triangle.a, triangle.b, triangle.c] {
            let next = places.len() + 1;
            let place = *places.entry(corner.map(f64::to_bits)).or_insert_with(|| {
                let _ = writeln!(corners, "v {} {} {}", corner[0], corner[1], corner[2]);
                next
            });
            let _ = write!(face, " {place}");
        }
        faces.push_str(&face);
        faces.push('\n');
    }
    corners + &faces
}

/// Reads a list of kernels: `x y z sigma w` a line, in metres, 1/metre and kg/m³; `#` begins a comment.
///
/// ```
/// let kernels = mascon::text::parse_kernels("# body\n-300 0 0  0.002 2100\n")?;
/// assert_eq!(kernels[0].w, 2100.0);
/// # Ok::<(), mascon::text::LineError>(())
/// ```
///
/// # Errors
/// The first line that is wrong.
pub fn parse_kernels(text: &str) -> Result<Vec<Kernel>, LineError> {
    ffi::in_default_mode(|| kernels(text))
}

fn kernels(text: &str) -> Result<Vec<Kernel>, LineError> {
    judge_kind(text.as_bytes())?;
    let mut kernels = Vec::new();
    for (line, words) in lines(text) {
        if words.is_empty() {
            continue;
        }
        kernels.push(kernel(line, &words)?);
        if kernels.len() > MAX_KERNELS {
            return wrong(line, "more than 4,096 kernels");
        }
    }
    Ok(kernels)
}

fn kernel(line: usize, words: &[&str]) -> Result<Kernel, LineError> {
    if words.iter().any(|word| word.contains([',', ';'])) {
        let why = format!("numbers with commas: {ONLY}, with spaces between the numbers");
        return wrong(line, why);
    }
    if words.len() != 5 {
        let why = format!(
            "a kernel is `x y z sigma w`, here are {} words",
            words.len()
        );
        return wrong(line, why);
    }
    let mut numbers = [0.0; 5];
    for (place, word) in numbers.iter_mut().zip(words) {
        *place = number(line, word)?;
    }
    let [x, y, z, sigma, w] = numbers;
    if [x, y, z].iter().any(|x| x.abs() > MAX_COORDINATE) {
        return wrong(line, "a centre's coordinates go up to 1e6 m");
    }
    if !(0.0..=MAX_SIGMA).contains(&sigma) {
        return wrong(line, format!("sigma is {sigma}, it goes from 0 to 1e6"));
    }
    if w.abs() > MAX_WEIGHT {
        return wrong(line, format!("w is {w}, it goes up to 1e30"));
    }
    let c = [x, y, z];
    Ok(Kernel { c, sigma, w })
}

/// An edit to be made.
#[derive(Clone, Copy, Debug, PartialEq)]
pub enum Edit {
    /// Puts masses into a cell: x, y, z, Cauchy mass, elliptic mass.
    Put(u32, u32, u32, f32, f32),
    /// Removes a cell's point: x, y, z.
    Remove(u32, u32, u32),
    /// Undoes the last edit.
    Undo,
}

impl Edit {
    /// Makes the edit.
    ///
    /// # Errors
    /// Those of [`Model::put`], [`Model::remove`] and [`Model::undo`].
    pub fn apply(self, model: &mut Model) -> Result<(), Refusal> {
        match self {
            Edit::Put(x, y, z, cauchy, elliptic) => model.put(x, y, z, cauchy, elliptic),
            Edit::Remove(x, y, z) => model.remove(x, y, z),
            Edit::Undo => model.undo(),
        }
    }

    /// Reads `put x y z cauchy elliptic`, `remove x y z` or `undo`.
    ///
    /// ```
    /// use mascon::text::Edit;
    ///
    /// assert_eq!(Edit::parse(&["remove", "1", "2", "3"]), Ok(Edit::Remove(1, 2, 3)));
    /// assert!(Edit::parse(&["put", "1", "2", "3"]).is_err());
    /// ```
    ///
    /// # Errors
    /// What is wrong, in words. Numbers that the library judges, a mass that is not finite or a cell outside, are read.
    pub fn parse(words: &[&str]) -> Result<Edit, String> {
        let cell = |word: &str| {
            let wrong = |_| format!("`{word}` is not a cell index, a whole number from 0");
            word.parse::<u32>().map_err(wrong)
        };
        let mass = |word: &str| {
            ffi::in_default_mode(|| word.parse::<f32>())
                .map_err(|_| format!("`{word}` is not a mass"))
        };
        match words {
            ["put", x, y, z, cauchy, elliptic] => Ok(Edit::Put(
                cell(x)?,
                cell(y)?,
                cell(z)?,
                mass(cauchy)?,
                mass(elliptic)?,
            )),
            ["remove", x, y, z] => Ok(Edit::Remove(cell(x)?, cell(y)?, cell(z)?)),
            ["undo"] => Ok(Edit::Undo),
            ["put", ..] => Err("put takes `x y z cauchy elliptic`".into()),
            ["remove", ..] => Err("remove takes `x y z`".into()),
            ["undo", ..] => Err("undo stands alone".into()),
            [other, ..] => Err(format!("`{other}` is not put, remove or undo")),
            [] => Err("no edit".into()),
        }
    }
}

impl fmt::Display for Edit {
    fn fmt(&self, f: &mut fmt::Formatter<'_>) -> fmt::Result {
        match self {
            Edit::Put(x, y, z, cauchy, elliptic) => {
                write!(f, "put {x} {y} {z} {cauchy} {elliptic}")
            }
            Edit::Remove(x, y, z) => write!(f, "remove {x} {y} {z}"),
            Edit::Undo => write!(f, "undo"),
        }
    }
}

/// Reads a list of edits, one a line, each with its line; `#` begins a comment.
///
/// # Errors
/// The first line that is wrong.
pub fn parse_edits(text: &str) -> Result<Vec<(usize, Edit)>, LineError> {
    let mut edits = Vec::new();
    for (line, words) in lines(text) {
        if words.is_empty() {
            continue;
        }
        match Edit::parse(&words) {
            Ok(edit) => edits.push((line, edit)),
            Err(why) => return wrong(line, why),
        }
    }
    Ok(edits)
}
