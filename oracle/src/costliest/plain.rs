//! A second implementation of both calls, equal halves counted once, and the faults that tests plant in them.

use super::{Costliest, Write};
use crate::ffi::Cost;

#[derive(Clone, Copy, PartialEq)]
pub(super) enum Fault {
    None,
    // the count
    HalvesNearlyEqual,
    HalvesTakenForOne,
    LeafBelowEight,
    LeafOfNine,
    FirstAxis,
    NarrowestAxis,
    AxesInTurn,
    LeavesOnly,
    RootLeftOut,
    QuarterOfCells,
    // the length
    HeaderLeftOut,
    OrderLeftOut,
    OrderInBytes,
    LengthOfTheFile,
    // the answer
    LengthAnswered,
    NumbersInARefusal,
    ZeroInARefusal,
    RefusedByNine,
    // 3, in both calls
    Grid0Accepted,
    Grid256Refused,
    Grid257Accepted,
    GridOf16Bits,
    // 9
    NineBeforeThree,
    NineAtEnough,
    NineByRecords,
    NineByHeader,
    NineByPlane,
    NineBy16Bits,
    WrittenBeforeNine,
    HeaderBeforeNine,
    // the file
    TreesMark,
    Version2,
    CountIsGrid,
    CountOf16Bits,
    DensityOne,
    VolumeOne,
    ScaleOne,
    NotReadOne,
    MaxAtMin,
    BoxOfGrid,
    RawSums,
    XOutermost,
    CoordinatesFromOne,
    PadOne,
    CauchyOfTwo,
    EllipticZero,
    MassesWhole,
    LastCellLeftOut,
    RestZeroed,
    RecordsAnswered,
}

macro_rules! cost_with {
    ($fault:ident) => {
        |g| plain_costliest(Fault::$fault, g)
    };
}

macro_rules! write_with {
    ($fault:ident) => {
        |g, out| plain_write(Fault::$fault, g, out)
    };
}

/// The numbers with each fault, and a kind of case that shows it; by those in "every grid" a grid size has other numbers.
pub(crate) const COST_FAULTS: [(Costliest, &str); 22] = [
    (cost_with!(HalvesNearlyEqual), "every grid"),
    (cost_with!(HalvesTakenForOne), "every grid"),
    (cost_with!(LeafBelowEight), "every grid"),
    (cost_with!(LeafOfNine), "every grid"),
    (cost_with!(FirstAxis), "every grid"),
    (cost_with!(NarrowestAxis), "every grid"),
    (cost_with!(AxesInTurn), "every grid"),
    (cost_with!(LeavesOnly), "every grid"),
    (cost_with!(RootLeftOut), "every grid"),
    (cost_with!(QuarterOfCells), "every grid"),
    (cost_with!(HeaderLeftOut), "every grid"),
    (cost_with!(OrderLeftOut), "every grid"),
    (cost_with!(OrderInBytes), "every grid"),
    (cost_with!(LengthOfTheFile), "every grid"),
    (cost_with!(LengthAnswered), "every grid"),
    (cost_with!(NumbersInARefusal), "any word"),
    (cost_with!(ZeroInARefusal), "any word"),
    (cost_with!(RefusedByNine), "any word"),
    (cost_with!(Grid0Accepted), "fixed cases"),
    (cost_with!(Grid256Refused), "fixed cases"),
    (cost_with!(Grid257Accepted), "fixed cases"),
    (cost_with!(GridOf16Bits), "any word"),
];

/// The file with each fault, and a kind of case that shows it.
pub(crate) const WRITE_FAULTS: [(Write, &str); 30] = [
    (write_with!(Grid0Accepted), "no grid"),
    (write_with!(Grid256Refused), "no room"),
    (write_with!(Grid257Accepted), "fixed cases"),
    (write_with!(GridOf16Bits), "no grid"),
    (write_with!(NineBeforeThree), "no grid"),
    (write_with!(NineAtEnough), "every length"),
    (write_with!(NineByRecords), "every length"),
    (write_with!(NineByHeader), "every length"),
    (write_with!(NineByPlane), "every length"),
    (write_with!(WrittenBeforeNine), "every length"),
    (write_with!(HeaderBeforeNine), "no room"),
    (write_with!(TreesMark), "every length"),
    (write_with!(Version2), "every length"),
    (write_with!(CountIsGrid), "every length"),
    (write_with!(DensityOne), "every length"),
    (write_with!(VolumeOne), "every length"),
    (write_with!(ScaleOne), "every length"),
    (write_with!(NotReadOne), "every length"),
    (write_with!(MaxAtMin), "every length"),
    (write_with!(BoxOfGrid), "every length"),
    (write_with!(RawSums), "every length"),
    (write_with!(XOutermost), "every length"),
    (write_with!(CoordinatesFromOne), "every length"),
    (write_with!(PadOne), "every length"),
    (write_with!(CauchyOfTwo), "every length"),
    (write_with!(EllipticZero), "every length"),
    (write_with!(MassesWhole), "every length"),
    (write_with!(LastCellLeftOut), "every length"),
    (write_with!(RestZeroed), "every length"),
    (write_with!(RecordsAnswered), "every length"),
];

/// Faults of the file that grids above 40 show, as 16 bits hold the cells of all others.
pub(super) const LARGE_FAULTS: [(Write, &str); 2] = [
    (write_with!(CountOf16Bits), "up to g 48"),
    (write_with!(NineBy16Bits), "no room"),
];

/// g as a fault reads it, or 3.
fn grid(fault: Fault, g: u32) -> Result<u32, u64> {
    let g = match fault {
        Fault::GridOf16Bits => g & 0xffff,
        _ => g,
    };
    let (least, greatest) = match fault {
        Fault::Grid0Accepted => (0, 256),
        Fault::Grid256Refused => (1, 255),
        Fault::Grid257Accepted => (1, 257),
        _ => (1, 256),
    };
    (least..=greatest).contains(&g).then_some(g).ok_or(3)
}

/// The axis of a split, this far down.
fn axis(fault: Fault, widths: [u64; 3], depth: usize) -> usize {
    let wide = |axis: &usize| widths[*axis] > 1;
    let found = match fault {
        Fault::FirstAxis => (0..3).find(wide),
        Fault::NarrowestAxis => (0..3).filter(wide).min_by_key(|&axis| widths[axis]),
        Fault::AxesInTurn => (depth..depth + 3).map(|axis| axis % 3).find(wide),
        _ => (0..3).rev().max_by_key(|&axis| widths[axis]),
    };
    found.expect("more than one cell")
}

/// The nodes of a full box's tree.
fn nodes(fault: Fault, widths: [u64; 3], depth: usize) -> u64 {
    let cells: u64 = widths.iter().product();
    let leaf = match fault {
        Fault::LeafBelowEight => 7,
        Fault::LeafOfNine => 9,
        _ => 8,
    };
    if cells <= leaf {
        return 1;
    }
    let axis = axis(fault, widths, depth);
    let lower = widths[axis] / 2;
    let upper = widths[axis] - lower;
    let part = |width: u64| {
        let mut widths = widths;
        widths[axis] = width;
        nodes(fault, widths, depth + 1)
    };
    let parts = match fault {
        Fault::HalvesNearlyEqual => 2 * part(lower),
        Fault::HalvesTakenForOne if lower == upper => part(lower),
        _ if lower == upper => 2 * part(lower),
        _ => part(lower) + part(upper),
    };
    match fault {
        Fault::LeavesOnly => parts,
        _ => 1 + parts,
    }
}

/// The numbers with a fault.
pub(super) fn plain_costliest(fault: Fault, g: u32) -> Cost {
    let g = match grid(fault, g) {
        Ok(g) => u64::from(g),
        Err(_) => return refused(fault, g),
    };
    let cells = g.pow(3);
    let nodes = match fault {
        Fault::RootLeftOut => nodes(fault, [g; 3], 0) - 1,
        Fault::QuarterOfCells => (cells / 4).max(2) - 1,
        _ => nodes(fault, [g; 3], 0),
    };
    let bytes = match fault {
        Fault::HeaderLeftOut => 80 * nodes + 4 * cells,
        Fault::OrderLeftOut => 64 + 80 * nodes,
        Fault::OrderInBytes => 64 + 80 * nodes + cells,
        Fault::LengthOfTheFile => 64 + 16 * cells,
        _ => 64 + 80 * nodes + 4 * cells,
    };
    let answer = match fault {
        Fault::LengthAnswered => bytes,
        _ => 0,
    };
    Cost {
        answer,
        nodes,
        bytes,
    }
}

/// A refusal with a fault.
fn refused(fault: Fault, g: u32) -> Cost {
    match fault {
        Fault::NumbersInARefusal => Cost {
            answer: 3,
            nodes: 1,
            bytes: 144 + 4 * u64::from(g),
        },
        Fault::ZeroInARefusal => Cost::refused(0),
        Fault::RefusedByNine => Cost::refused(9),
        _ => Cost::refused(3),
    }
}

/// The file's header with a fault.
fn header(fault: Fault, g: u32) -> [u32; 16] {
    let one = 1f32.to_bits();
    let mut words = [0; 16];
    words[..4].copy_from_slice(&[0x314d_5952, 1, g, g.pow(3)]);
    words[11..14].fill(one);
    match fault {
        Fault::TreesMark => words[0] = 0x314d_5452,
        Fault::Version2 => words[1] = 2,
        Fault::CountIsGrid => words[3] = g,
        Fault::CountOf16Bits => words[3] &= 0xffff,
        Fault::DensityOne => words[4] = one,
        Fault::VolumeOne => words[5] = one,
        Fault::ScaleOne => words[6] = one,
        Fault::NotReadOne => words[7] = one,
        Fault::MaxAtMin => words[8..14].rotate_left(3),
        Fault::BoxOfGrid => words[11..14].fill((g as f32).to_bits()),
        Fault::RawSums => words[14..].fill((g.pow(3) as f32).to_bits()),
        Fault::LastCellLeftOut => words[3] -= 1,
        _ => (),
    }
    words
}

/// The record of a cell with a fault, as words.
fn record(fault: Fault, g: u32, number: u32) -> [u32; 4] {
    let mut cell = [number % g, number / g % g, number / g / g];
    match fault {
        Fault::XOutermost => cell.reverse(),
        Fault::CoordinatesFromOne => cell = cell.map(|coordinate| coordinate + 1),
        _ => (),
    }
    let [x, y, z] = cell;
    let pad = u32::from(fault == Fault::PadOne);
    let [cauchy, elliptic] = match fault {
        Fault::CauchyOfTwo => [2f32, 1.0].map(f32::to_bits),
        Fault::EllipticZero => [1f32, 0.0].map(f32::to_bits),
        Fault::MassesWhole => [1; 2],
        _ => [1f32; 2].map(f32::to_bits),
    };
    [x | y << 16, z | pad << 16, cauchy, elliptic]
}

/// Writes the file with a fault, as far as there is room.
fn put(fault: Fault, g: u32, out: &mut [u8]) {
    let cells = g.pow(3) - u32::from(fault == Fault::LastCellLeftOut);
    let records = (0..cells).flat_map(|number| record(fault, g, number));
    let words = header(fault, g).into_iter().chain(records);
    let bytes = words.flat_map(u32::to_le_bytes);
    out.iter_mut().zip(bytes).for_each(|(to, byte)| *to = byte);
}

/// The file written with a fault.
pub(super) fn plain_write(fault: Fault, g: u32, out: &mut [u8]) -> u64 {
    written(fault, g, out).unwrap_or_else(|cause| cause)
}

fn written(fault: Fault, g: u32, out: &mut [u8]) -> Result<u64, u64> {
    let cells = u128::from(g).pow(3);
    let needed = match fault {
        Fault::NineAtEnough => 65 + 16 * cells,
        Fault::NineByRecords => 16 * cells,
        Fault::NineByHeader => 64,
        Fault::NineByPlane => 64 + 16 * u128::from(g).pow(2),
        Fault::NineBy16Bits => 64 + 16 * (cells & 0xffff),
        _ => 64 + 16 * cells,
    };
    let short = (out.len() as u128) < needed;
    if fault == Fault::NineBeforeThree && short {
        return Err(9);
    }
    let g = grid(fault, g)?;
    match fault {
        Fault::WrittenBeforeNine => put(fault, g, out),
        Fault::HeaderBeforeNine => put(fault, 1, out.split_at_mut_checked(64).ok_or(9u64)?.0),
        _ => (),
    }
    if short {
        return Err(9);
    }
    put(fault, g, out);
    let length = 64 + 16 * g.pow(3) as usize;
    match fault {
        Fault::RestZeroed => out[length..].fill(0),
        Fault::RecordsAnswered => return Ok(u64::from(g.pow(3))),
        _ => (),
    }
    Ok(length as u64)
}
