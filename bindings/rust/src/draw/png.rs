//! Pictures as PNG: dots in memory, deflate with fixed Huffman codes, checksums.

use super::{font, Anchor, Canvas, Color, Rect, LETTER};

/// A picture of dots.
pub(super) struct Dots {
    width: usize,
    height: usize,
    dots: Vec<u8>,
}

impl Dots {
    pub(super) fn new(width: f64, height: f64) -> Dots {
        let (width, height) = (width.ceil() as usize, height.ceil() as usize);
        let dots = vec![255; 3 * width * height];
        Dots {
            width,
            height,
            dots,
        }
    }

    #[cfg(test)]
    pub(super) fn color(&self, x: usize, y: usize) -> Color {
        let at = 3 * (y * self.width + x);
        Color([self.dots[at], self.dots[at + 1], self.dots[at + 2]])
    }

    fn blend(&mut self, x: i64, y: i64, Color(color): Color, share: f64) {
        if (0..self.width as i64).contains(&x) && (0..self.height as i64).contains(&y) {
            let at = 3 * (y as usize * self.width + x as usize);
            for (dot, part) in self.dots[at..at + 3].iter_mut().zip(color) {
                *dot =
                    (f64::from(*dot) + share * (f64::from(part) - f64::from(*dot))).round() as u8;
            }
        }
    }

    /// Letters twice the font's size, diagonals filled in (Scale2x).
    fn letter(&mut self, letter: char, x: i64, y: i64, color: Color) {
        for row in 0..8 {
            for column in 0..5 {
                let at = |dx: i32, dy: i32| font::dot(letter, column + dx, row + dy);
                let (up, down, left, right) = (at(0, -1), at(0, 1), at(-1, 0), at(1, 0));
                let own = at(0, 0);
                let pick = |a: bool, b: bool, other: bool, further: bool| {
                    if a == b && a != further && b != other {
                        a
                    } else {
                        own
                    }
                };
                let quarters = [
                    (0, 0, pick(left, up, right, down)),
                    (1, 0, pick(up, right, down, left)),
                    (0, 1, pick(down, left, up, right)),
                    (1, 1, pick(right, down, left, up)),
                ];
                for (dx, dy, on) in quarters {
                    if on {
                        let (column, row) = (i64::from(column), i64::from(row));
                        self.blend(x + 2 * column + dx, y + 2 * row + dy, color, 1.0);
                    }
                }
            }
        }
    }

    pub(super) fn png(&self) -> Vec<u8> {
        let mut rows = Vec::with_capacity(self.height * (3 * self.width + 1));
        for row in self.dots.chunks_exact(3 * self.width) {
            rows.push(0);
            rows.extend_from_slice(row);
        }
        let mut header = Vec::new();
        header.extend((self.width as u32).to_be_bytes());
        header.extend((self.height as u32).to_be_bytes());
        header.extend([8, 2, 0, 0, 0]);
        let mut bytes = b"\x89PNG\r\n\x1a\n".to_vec();
        chunk(&mut bytes, b"IHDR", &header);
        chunk(&mut bytes, b"IDAT", &zlib(&rows));
        chunk(&mut bytes, b"IEND", &[]);
        bytes
    }
}

impl Canvas for Dots {
    fn rects(&mut self, rects: &[Rect], color: Color) {
        for rect in rects {
            let [x0, y0] = [rect.x, rect.y].map(|low| low.round().max(0.0) as usize);
            let x1 = ((rect.x + rect.w).round().max(0.0) as usize).min(self.width);
            let y1 = ((rect.y + rect.h).round().max(0.0) as usize).min(self.height);
            for y in y0..y1 {
                for x in x0..x1 {
                    let at = 3 * (y * self.width + x);
                    self.dots[at..at + 3].copy_from_slice(&color.0);
                }
            }
        }
    }

    /// Each dot by its distance from the line.
    fn line(&mut self, from: [f64; 2], to: [f64; 2], width: f64, color: Color) {
        let [dx, dy] = [to[0] - from[0], to[1] - from[1]];
        let length = (dx * dx + dy * dy).sqrt().max(1e-9);
        let reach = width / 2.0 + 1.0;
        let range = |axis: usize| {
            let low = (from[axis].min(to[axis]) - reach).floor() as i64;
            let high = (from[axis].max(to[axis]) + reach).ceil() as i64;
            low..=high
        };
        for y in range(1) {
            for x in range(0) {
                let [px, py] = [x as f64 + 0.5 - from[0], y as f64 + 0.5 - from[1]];
                let along = ((px * dx + py * dy) / length).clamp(0.0, length);
                let [ox, oy] = [px - along * dx / length, py - along * dy / length];
                let share = (width / 2.0 + 0.5 - (ox * ox + oy * oy).sqrt()).clamp(0.0, 1.0);
                if share > 0.0 {
                    self.blend(x, y, color, share);
                }
            }
        }
    }

    fn text(&mut self, at: [f64; 2], anchor: Anchor, bold: bool, text: &str, color: Color) {
        let width = LETTER * text.chars().count() as f64 - 2.0;
        let left = match anchor {
            Anchor::Start => at[0],
            Anchor::Middle => at[0] - width / 2.0,
            Anchor::End => at[0] - width,
        };
        for (i, letter) in text.chars().enumerate() {
            let x = (left + LETTER * i as f64).round() as i64;
            let y = at[1].round() as i64 - 14;
            self.letter(letter, x, y, color);
            if bold {
                self.letter(letter, x + 1, y, color);
            }
        }
    }
}

fn chunk(bytes: &mut Vec<u8>, name: &[u8; 4], content: &[u8]) {
    bytes.extend((content.len() as u32).to_be_bytes());
    let start = bytes.len();
    bytes.extend(name);
    bytes.extend(content);
    let sum = crc(&bytes[start..]);
    bytes.extend(sum.to_be_bytes());
}

fn crc(bytes: &[u8]) -> u32 {
    let mut table = [0; 256];
    for (i, entry) in table.iter_mut().enumerate() {
        *entry = (0..8).fold(i as u32, |sum, _| {
            if sum & 1 == 1 {
                0xedb8_8320 ^ (sum >> 1)
            } else {
                sum >> 1
            }
        });
    }
    !bytes.iter().fold(!0, |sum: u32, &byte| {
        table[(sum as u8 ^ byte) as usize] ^ (sum >> 8)
    })
}

fn adler(bytes: &[u8]) -> u32 {
    let (mut a, mut b) = (1_u32, 0_u32);
    for part in bytes.chunks(5000) {
        for &byte in part {
            a += u32::from(byte);
            b += a;
        }
        a %= 65521;
        b %= 65521;
    }
    b << 16 | a
}

struct Bits {
    bytes: Vec<u8>,
    pending: u64,
    count: u32,
}

impl Bits {
    /// Lowest bit first.
    fn put(&mut self, value: u32, count: u32) {
        self.pending |= u64::from(value) << self.count;
        self.count += count;
        while self.count >= 8 {
            self.bytes.push(self.pending as u8);
            self.pending >>= 8;
            self.count -= 8;
        }
    }

    /// A Huffman code, highest bit first.
    fn code(&mut self, code: u32, count: u32) {
        self.put(code.reverse_bits() >> (32 - count), count);
    }

    /// A literal or a length by the fixed codes (RFC 1951, 3.2.6).
    fn symbol(&mut self, symbol: u32) {
        match symbol {
            0..=143 => self.code(0x30 + symbol, 8),
            144..=255 => self.code(0x190 + symbol - 144, 9),
            256..=279 => self.code(symbol - 256, 7),
            _ => self.code(0xc0 + symbol - 280, 8),
        }
    }

    fn length(&mut self, length: usize) {
        // The greatest length has a symbol of its own.
        if length == 258 {
            return self.symbol(285);
        }
        let offset = length as u32 - 3;
        if offset < 8 {
            return self.symbol(257 + offset);
        }
        let extra = offset.ilog2() - 2;
        self.symbol(257 + 4 * extra + (offset >> extra));
        self.put(offset & ((1 << extra) - 1), extra);
    }

    fn distance(&mut self, distance: usize) {
        let offset = distance as u32 - 1;
        if offset < 4 {
            return self.code(offset, 5);
        }
        let extra = offset.ilog2() - 1;
        self.code(2 * extra + (offset >> extra), 5);
        self.put(offset & ((1 << extra) - 1), extra);
    }
}

/// One block with fixed codes; repeats are found by their first three bytes and in the row above.
fn zlib(bytes: &[u8]) -> Vec<u8> {
    const WINDOW: usize = 32768;
    const NOWHERE: usize = usize::MAX;
    let mut out = Bits {
        bytes: vec![0x78, 0x01],
        pending: 0,
        count: 0,
    };
    out.put(1, 1);
    out.put(1, 2);
    let mut last = vec![NOWHERE; 1 << 15];
    let key = |at: usize| {
        let three = u32::from_le_bytes([bytes[at], bytes[at + 1], bytes[at + 2], 0]);
        (three.wrapping_mul(0x9e37_79b1) >> 17) as usize
    };
    let mut at = 0;
    let mut previous = NOWHERE;
    while at < bytes.len() {
        let most = (bytes.len() - at).min(258);
        let mut best = (0, 0);
        if most >= 3 {
            for from in [previous, last[key(at)]] {
                if from < at && at - from <= WINDOW {
                    let repeat = (0..most)
                        .take_while(|&i| bytes[from + i] == bytes[at + i])
                        .count();
                    if repeat > best.0 {
                        best = (repeat, at - from);
                    }
                }
            }
        }
        let step = if best.0 >= 3 {
            out.length(best.0);
            out.distance(best.1);
            // Where this repeat goes on.
            previous = at + best.0 - best.1;
            best.0
        } else {
            out.symbol(u32::from(bytes[at]));
            previous = NOWHERE;
            1
        };
        for place in at..at + step {
            if place + 3 <= bytes.len() {
                last[key(place)] = place;
            }
        }
        at += step;
    }
    out.symbol(256);
    if out.count > 0 {
        out.put(0, 8 - out.count);
    }
    out.bytes.extend(adler(bytes).to_be_bytes());
    out.bytes
}

#[cfg(test)]
mod tests {
    use super::*;

    /// A reader of fixed codes, written from RFC 1951's tables.
    fn inflate(bytes: &[u8]) -> Vec<u8> {
        const LENGTHS: [(usize, u32); 29] = [
            (3, 0),
            (4, 0),
            (5, 0),
            (6, 0),
            (7, 0),
            (8, 0),
            (9, 0),
            (10, 0),
            (11, 1),
            (13, 1),
            (15, 1),
            (17, 1),
            (19, 2),
            (23, 2),
            (27, 2),
            (31, 2),
            (35, 3),
            (43, 3),
            (51, 3),
            (59, 3),
            (67, 4),
            (83, 4),
            (99, 4),
            (115, 4),
            (131, 5),
            (163, 5),
            (195, 5),
            (227, 5),
            (258, 0),
        ];
        const DISTANCES: [(usize, u32); 30] = [
            (1, 0),
            (2, 0),
            (3, 0),
            (4, 0),
            (5, 1),
            (7, 1),
            (9, 2),
            (13, 2),
            (17, 3),
            (25, 3),
            (33, 4),
            (49, 4),
            (65, 5),
            (97, 5),
            (129, 6),
            (193, 6),
            (257, 7),
            (385, 7),
            (513, 8),
            (769, 8),
            (1025, 9),
            (1537, 9),
            (2049, 10),
            (3073, 10),
            (4097, 11),
            (6145, 11),
            (8193, 12),
            (12289, 12),
            (16385, 13),
            (24577, 13),
        ];
        let mut place = 16;
        let mut bit = || {
            let bit = bytes[place / 8] >> (place % 8) & 1;
            place += 1;
            u32::from(bit)
        };
        assert_eq!([bit(), bit(), bit()], [1, 1, 0]);
        let mut out = Vec::new();
        loop {
            let mut code = 0;
            let mut size = 0;
            let symbol = loop {
                code = code << 1 | bit();
                size += 1;
                match (size, code) {
                    (7, 0..=0x17) => break 256 + code,
                    (8, 0x30..=0xbf) => break code - 0x30,
                    (8, 0xc0..=0xc7) => break 280 + code - 0xc0,
                    (9, 0x190..=0x1ff) => break 144 + code - 0x190,
                    (0..=9, _) => {}
                    _ => panic!("no code"),
                }
            };
            match symbol {
                0..=255 => out.push(symbol as u8),
                256 => break,
                _ => {
                    let (base, extra) = LENGTHS[symbol as usize - 257];
                    let length = base + (0..extra).map(|i| (bit() << i) as usize).sum::<usize>();
                    let code = (0..5).fold(0, |code, _| code << 1 | bit()) as usize;
                    let (base, extra) = DISTANCES[code];
                    let distance = base + (0..extra).map(|i| (bit() << i) as usize).sum::<usize>();
                    for _ in 0..length {
                        out.push(out[out.len() - distance]);
                    }
                }
            }
        }
        let end = place.div_ceil(8);
        assert_eq!(bytes[end..], adler(&out).to_be_bytes());
        out
    }

    #[test]
    fn deflated_bytes_come_back() {
        let mut state = 1_u32;
        for length in (0..600).chain([70_000, 200_000]) {
            let bytes: Vec<u8> = (0..length)
                .map(|i| {
                    state = state.wrapping_mul(1_664_525).wrapping_add(1_013_904_223);
                    if state >> 28 == 0 {
                        (state >> 20) as u8
                    } else {
                        (i / 7 % 5) as u8
                    }
                })
                .collect();
            assert!(inflate(&zlib(&bytes)) == bytes, "{length}");
        }
        for distance in (1..300).chain([1000, 5000, 20_000, 32_700]) {
            let mut bytes: Vec<u8> = (0..distance).map(|i| ((i * i) >> 3) as u8).collect();
            bytes.extend_from_within(..);
            assert!(inflate(&zlib(&bytes)) == bytes, "{distance}");
        }
    }

    #[test]
    fn checksums() {
        assert_eq!(crc(b"123456789"), 0xcbf4_3926);
        assert_eq!(adler(b"Wikipedia"), 0x11e6_0398);
    }
}
