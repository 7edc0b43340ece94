//! Point files (RYM1) as bytes.

#[derive(Clone, Copy)]
pub(crate) struct Header {
    pub(crate) grid: u32,
    pub(crate) constant_density: f32,
    pub(crate) cell_volume: f32,
    pub(crate) cauchy_scale: f32,
    pub(crate) min: [f32; 3],
    pub(crate) max: [f32; 3],
}

#[derive(Clone, Copy)]
pub(crate) struct Record {
    pub(crate) cell: [u16; 3],
    pub(crate) cauchy_mass: f32,
    pub(crate) elliptic_mass: f32,
}

impl Header {
    /// Grid `grid` over the box from 0 to `side` on each axis.
    pub(crate) fn cube(grid: u32, side: f32) -> Self {
        Self {
            grid,
            constant_density: 1190.0,
            cell_volume: 1.0,
            cauchy_scale: 1.0,
            min: [0.0; 3],
            max: [side; 3],
        }
    }
}

/// A record whose masses tell its number.
pub(crate) fn record(cell: [u16; 3], number: u32) -> Record {
    Record {
        cell,
        cauchy_mass: number as f32,
        elliptic_mass: -0.5 * number as f32,
    }
}

/// A point file; the fields that are not read are 0.
pub(crate) fn point_file(header: Header, records: &[Record]) -> Vec<u8> {
    let mut bytes = Vec::with_capacity(64 + 16 * records.len());
    for word in [0x314d_5952, 1, header.grid, records.len() as u32] {
        bytes.extend_from_slice(&word.to_le_bytes());
    }
    let lone = [
        header.constant_density,
        header.cell_volume,
        header.cauchy_scale,
        0.0,
    ];
    for float in lone
        .into_iter()
        .chain(header.min)
        .chain(header.max)
        .chain([0.0; 2])
    {
        bytes.extend_from_slice(&float.to_le_bytes());
    }
    for record in records {
        let [x, y, z] = record.cell;
        for half_word in [x, y, z, 0] {
            bytes.extend_from_slice(&half_word.to_le_bytes());
        }
        for mass in [record.cauchy_mass, record.elliptic_mass] {
            bytes.extend_from_slice(&mass.to_le_bytes());
        }
    }
    bytes
}
