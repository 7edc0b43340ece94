//! What each command does.

pub(crate) const ALL: &str = "\
mascon: models of small bodies as point masses in a grid

  mascon fill MESH KERNELS -o OUT   fill a mesh (OBJ) into a point file
  mascon open IN -o OUT             write a point file in working form
  mascon fold IN -o OUT             the same of a file that names a cell twice: the later record counts
  mascon get MODEL X Y Z            what a cell holds, and where it is
  mascon list MODEL                 the points as CSV, all or those in a box
  mascon put MODEL X Y Z CAUCHY ELLIPTIC
  mascon remove MODEL X Y Z         edit a cell of a model file
  mascon undo MODEL                 undo the last edit
  mascon redo MODEL                 make the edit again that was undone last
  mascon apply MODEL EDITS          make a list of edits
  mascon log MODEL                  list the edits that can be undone
  mascon build IN -o OUT            build the tree of a point file
  mascon costliest GRID             what a tree takes at most, before there is a file
  mascon info FILE                  counts, masses, box, depth of a point file or tree
  mascon check FILE                 every fault of a point file or tree, with its place
  mascon draw FILE -o OUT           draw a model (.svg or .png)
  mascon example DIR                write a contact binary to try the above on
  mascon help COMMAND               more about a command
  mascon --version                  (-V) the version

Every command takes --quiet: no report of what was done and no progress; warnings and refusals are said all the same.
Exit status: 0 done, 1 refused or failed, 2 wrong usage. On failure no file is changed (apply --keep-going saves the
edits that were made). A file to be read may be - for standard input, but not a model that is edited. A name that begins
with - follows a word of its own, --.
";

pub(crate) const HELP: &str = "\
mascon help [COMMAND]

Lists the commands, or says more about one of them; mascon COMMAND --help says the same.
";

const FILL: &str = "\
mascon fill MESH KERNELS -o OUT [--grid N] [--target KG] [--density D] [--elliptic FILE] [--scale F] [--widen METRES] [--force]

Writes the point file (RYM1) of the cells whose middle lies inside the mesh.

  MESH            Wavefront OBJ in metres: v and f lines; faces with more than three corners become fans
  KERNELS         the Cauchy kernels, one a line: x y z sigma w, in metres, 1/metre and kg/m^3; # begins a comment
  -o OUT          the point file
  --grid N        cells on each axis, 1 to 256 (64)
  --target KG     scale each list's masses to this sum; 0: as the kernels give them (0)
  --density D     the constant density in kg/m^3 (1190)
  --elliptic FILE the elliptic kernels (none: elliptic masses are 0)
  --scale F       multiply the mesh's coordinates, 1000 for a mesh in kilometres (1)
  --widen METRES  widen the box on each side, by a triangle without area that no ray meets (0)
  --force         write over a model that has a journal; the journal goes

A point file holds half the cells, so that a body which fills more of its box is refused (18): --widen makes room. Before
it starts, fill tells where that will be so, where the mesh is not closed, and where shells touch on a row of middles: rays
run along x and crossings at one distance count once, so that cells whose rays pass there are judged wrongly.

The time grows with cells x triangles. At most 2^20 triangles and 4,096 kernels a list; coordinates up to 1e6 m.
";

const OPEN: &str = "\
mascon open IN -o OUT [--force]

Writes a point file in working form: one record for each occupied cell, ascending by cell, pad 0. A file in which two
records name one cell is refused (21): see fold. What was left out (pads, bytes after the records) is counted. OUT may be
IN. With --force, OUT may be a model that has a journal, which goes, or a journal.
";

const FOLD: &str = "\
mascon fold IN -o OUT [--most N] [--force]

Writes a point file in working form, as open does, also where two or more records name one cell: the last of them counts,
the others are dropped. Lists the dropped records, N of them (20): number from 0, cell, Cauchy and elliptic mass, and the
record that counts. OUT may be IN where nothing is dropped. With --force it may be IN all the same, whose dropped records
are then gone, or a model that has a journal, which goes, or a journal.
";

const EDIT: &str = "\
mascon put MODEL X Y Z CAUCHY ELLIPTIC     masses in kg into a cell, over what it held
mascon remove MODEL X Y Z                  the cell becomes empty
mascon put MODEL --at X Y Z CAUCHY ELLIPTIC
mascon remove MODEL --at X Y Z             the same for the cell that a place in metres lies in (see get)
mascon undo MODEL [--steps N | --all]      the last edits are undone
mascon redo MODEL [--steps N | --all]      what was undone last is made again, until the next put or remove
mascon apply MODEL EDITS [--keep-going]    a list of edits, one a line: put ..., remove ..., undo; # begins a comment; - reads standard input
mascon log MODEL                           the edits that can be undone, the last one last

X, Y, Z are cell indices from 0. Edits are entered in MODEL.journal, so that undo and redo work across runs. Both files
are written beside and renamed; the journal names its model, and the one that it replaced, by length and hash, and a
pair that does not belong together is refused. A run that was cut off between the two renames is finished by the next
edit; commands that only read show the model as if it were finished, say so and change nothing. A file that is not in
working form is not edited: run `mascon open` first, or `mascon fold` where it names a cell twice.

apply stops at the first refusal, names its line and changes nothing. With --keep-going it passes over refused edits,
saves the others and exits with 1 if any was refused. Each edit judges the whole model, so that long lists for large
models take their time; progress is shown.
";

const GET: &str = "\
mascon get MODEL X Y Z
mascon get MODEL --at X Y Z        the cell that a place in metres lies in

Tells of a cell: its indices from 0 and its number, (Z x grid + Y) x grid + X; its record's place in the file, from 0; its
middle in metres; its masses in kg. That a cell is empty is no failure; a cell outside the grid or a place outside the box is
refused. A place on a face between two cells lies in the upper one, and the box's greatest faces belong to the last cells.
Of a file that is not in working form, the record's place is that in the file that `mascon open` writes.
";

const LIST: &str = "\
mascon list MODEL [--cells X0 Y0 Z0 X1 Y1 Z1 | --metres X0 Y0 Z0 X1 Y1 Z1]

Writes the points to standard output as CSV, ascending by cell number, under the heading
index,x,y,z,x_m,y_m,z_m,cauchy_kg,elliptic_kg: the record's place in the file (see get), the cell, its middle in metres and its
masses, in numbers that read back exactly.

  --cells ...     only the cells from one corner of a box to the other
  --metres ...    only the cells whose middle lies in a box of metres; inf and -inf leave a side open

Both corners are included and may stand in either order. Where no point is listed, standard error says so.
";

const BUILD: &str = "\
mascon build IN -o OUT [--force]

Builds the tree (RTM1, version 2) of a point file, in working form or not; one that names a cell twice is refused (21), see
fold. A file is refused (22), too, where a float of its tree is too large, from 3.4e38 in magnitude: masses that add up to
that, or that nearly cancel, so that their centre lies so far away. The node, its cells and the heaviest of them are told,
and nothing is written. With --force over another point file or a journal.

Besides the file and the tree, building takes scratch memory: 8 bytes for every 32 cells where the file is in working form,
4 MiB at grid 256, else 4 bytes for each cell, 64 MiB, as open and fold do. info tells how much a file takes.
";

const COSTLIEST: &str = "\
mascon costliest GRID [-o OUT] [--force]

Tells what the most costly model of a grid takes, so that room can be reserved before there is a file: the greatest node
count of its trees and the length of the tree that has it, both reached with a point in every cell, the scratch memory that
building it takes, and the length of that point file. Every other point file of the grid that is accepted has at most as
many nodes and bytes in its tree, and takes as much scratch where it is in working form.

  GRID            cells on each axis, 1 to 256
  -o OUT          write the point file (RYM1): every cell in working form, all masses 1, the box from 0 to 1 m,
                  density, cell volume, scale and raw sums 0
  --force         OUT may be a model that has a journal, which goes, or a journal
";

const INFO: &str = "\
mascon info FILE

Counts, masses, box and depth of a point file (RYM1) or tree (RTM1); of a point file also what its tree takes at most, and
how much scratch memory building it takes.
";

const CHECK: &str = "\
mascon check FILE [--most N]

Lists every fault of a point file or tree: cause, record or node, field and byte, all counted from 0; N of them (20).
Of a point file these are, last, the records that name a cell again (cause 21). It also lists what is not in working form
(cause 10) and notes bytes after the last record, neither of which is a fault. Where there is no fault so far, it works out
the point file's tree and lists the floats that are too large (cause 22), by which build refuses it, else the greatest one;
this takes about as long as build. Then it judges FILE.journal. Exit status 1 if there is a fault.

Of a tree, an infinity is a fault: it stands where a float was too large.
";

const DRAW: &str = "\
mascon draw FILE -o OUT.svg|OUT.png [--slice z=N|z=Nm] [--before OTHER] [--mass cauchy|elliptic] [--title TEXT]
            [--force]

Draws occupied cells and mass, summed along each axis: three projections side by side, axes in metres. With --before,
cells added, removed and changed since OTHER are marked.

With --slice it draws the cells of one layer across x, y or z, each by its mass, empty ones as ground: z=12 is the layer
of index 12 on z, z=-130.5m the one that this place in metres lies in. With --before, the marks are those of the layer.
With --force over a point file or a journal.
";

const EXAMPLE: &str = "\
mascon example DIR [--rings N] [--force]

Writes a contact binary, two lumpy balls that touch, to DIR: binary.obj, cauchy.txt, elliptic.txt and edits.txt (for
grid 32). N is the mesh's fineness, 4 to 256 (24). With --force over other files of these names.
";

pub(crate) fn of(command: &str) -> Option<&'static str> {
    Some(match command {
        "fill" => FILL,
        "open" => OPEN,
        "fold" => FOLD,
        "put" | "remove" | "undo" | "redo" | "apply" | "log" => EDIT,
        "get" => GET,
        "list" => LIST,
        "build" => BUILD,
        "costliest" => COSTLIEST,
        "info" => INFO,
        "check" => CHECK,
        "draw" => DRAW,
        "example" => EXAMPLE,
        _ => return None,
    })
}
