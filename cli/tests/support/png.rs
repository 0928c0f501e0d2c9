//! A reader of the pictures that a browser takes of its page: PNG of 8 bits for each colour.

/// A picture.
pub struct Picture {
    pub width: usize,
    pub height: usize,
    /// Bytes for each pixel: 3, or 4 with opacity.
    depth: usize,
    bytes: Vec<u8>,
}

impl Picture {
    /// The red, green and blue of a pixel.
    pub fn pixel(&self, x: usize, y: usize) -> [u8; 3] {
        let at = (y * self.width + x) * self.depth;
        [self.bytes[at], self.bytes[at + 1], self.bytes[at + 2]]
    }

    /// Reads a picture.
    pub fn read(png: &[u8]) -> Picture {
        assert_eq!(png[..8], *b"\x89PNG\r\n\x1a\n");
        let number = |at: usize| {
            let bytes = png[at..at + 4].try_into().expect("four bytes");
            u32::from_be_bytes(bytes) as usize
        };
        let (width, height) = (number(16), number(20));
        let depth = match (png[24], png[25], png[28]) {
            (8, 2, 0) => 3,
            (8, 6, 0) => 4,
            other => panic!("a picture of the kind {other:?}"),
        };
        let mut packed = Vec::new();
        let mut at = 8;
        while at < png.len() {
            let length = number(at);
            if png[at + 4..at + 8] == *b"IDAT" {
                packed.extend(&png[at + 8..at + 8 + length]);
            }
            at += length + 12;
        }
        let rows = inflated(&packed[2..]);
        let bytes = unfiltered(&rows, width * depth, depth);
        assert_eq!(bytes.len(), width * height * depth);
        Picture {
            width,
            height,
            depth,
            bytes,
        }
    }
}

/// The rows of a picture without their filters.
fn unfiltered(rows: &[u8], length: usize, depth: usize) -> Vec<u8> {
    let mut bytes: Vec<u8> = Vec::new();
    for row in rows.chunks(length + 1) {
        let start = bytes.len();
        for (place, byte) in row[1..].iter().enumerate() {
            let in_front =
                |back: usize| (start + place).checked_sub(back).map_or(0, |at| bytes[at]);
            let left = if place < depth { 0 } else { in_front(depth) };
            let above = in_front(length);
            let corner = if place < depth {
                0
            } else {
                in_front(length + depth)
            };
            let guess = match row[0] {
                0 => 0,
                1 => left,
                2 => above,
                3 => ((u16::from(left) + u16::from(above)) / 2) as u8,
                _ => nearest(left, above, corner),
            };
            bytes.push(byte.wrapping_add(guess));
        }
    }
    bytes
}

/// The one of three bytes that is nearest to the first two's sum without the third.
fn nearest(left: u8, above: u8, corner: u8) -> u8 {
    let sum = i32::from(left) + i32::from(above) - i32::from(corner);
    let far = |byte: u8| (sum - i32::from(byte)).abs();
    let choices = [left, above, corner];
    choices
        .into_iter()
        .min_by_key(|byte| far(*byte))
        .unwrap_or(0)
}

/// Bits, the lowest of each byte first.
struct Bits<'b> {
    bytes: &'b [u8],
    at: usize,
}

impl Bits<'_> {
    /// The next so many bits as a number, the first bit the lowest.
    fn number(&mut self, count: usize) -> usize {
        (0..count).fold(0, |number, place| {
            let bit = self.bytes[self.at / 8] >> (self.at % 8) & 1;
            self.at += 1;
            number | usize::from(bit) << place
        })
    }

    /// The next symbol of a code.
    fn symbol(&mut self, code: &Code) -> usize {
        let (mut word, mut first, mut place) = (0, 0, 0);
        for count in &code.counts {
            word = word << 1 | self.number(1);
            first <<= 1;
            if word < first + count {
                return code.symbols[place + word - first];
            }
            first += count;
            place += count;
        }
        panic!("a word that is no symbol's");
    }
}

/// A prefix code: how many words have each length, from 1, and their symbols in order.
struct Code {
    counts: Vec<usize>,
    symbols: Vec<usize>,
}

impl Code {
    /// The code in which each symbol's word has this length; 0 for none.
    fn new(lengths: &[usize]) -> Code {
        let with = |length: usize| (0..lengths.len()).filter(move |s| lengths[*s] == length);
        Code {
            counts: (1..16).map(|length| with(length).count()).collect(),
            symbols: (1..16).flat_map(with).collect(),
        }
    }
}

/// Unpacks a deflate stream.
fn inflated(bytes: &[u8]) -> Vec<u8> {
    let mut bits = Bits { bytes, at: 0 };
    let mut out = Vec::new();
    loop {
        let last = bits.number(1) == 1;
        match bits.number(2) {
            0 => {
                bits.at = bits.at.next_multiple_of(8);
                let length = bits.number(16);
                bits.number(16);
                (0..length).for_each(|_| out.push(bits.number(8) as u8));
            }
            1 => {
                let lengths = [(144, 8), (112, 9), (24, 7), (8, 8)];
                let lengths = lengths.map(|(count, length)| vec![length; count]).concat();
                copy(
                    &mut bits,
                    &Code::new(&lengths),
                    &Code::new(&[5; 30]),
                    &mut out,
                );
            }
            _ => {
                let (letters, distances) = codes(&mut bits);
                copy(&mut bits, &letters, &distances, &mut out);
            }
        }
        if last {
            return out;
        }
    }
}

/// Reads the two codes of a part of a stream.
fn codes(bits: &mut Bits) -> (Code, Code) {
    const ORDER: [usize; 19] = [
        16, 17, 18, 0, 8, 7, 9, 6, 10, 5, 11, 4, 12, 3, 13, 2, 14, 1, 15,
    ];
    let letters = bits.number(5) + 257;
    let distances = bits.number(5) + 1;
    let mut first = [0; 19];
    for place in ORDER.iter().take(bits.number(4) + 4) {
        first[*place] = bits.number(3);
    }
    let code = Code::new(&first);
    let mut lengths: Vec<usize> = Vec::new();
    while lengths.len() < letters + distances {
        let (value, count) = match bits.symbol(&code) {
            16 => (lengths[lengths.len() - 1], bits.number(2) + 3),
            17 => (0, bits.number(3) + 3),
            18 => (0, bits.number(7) + 11),
            length => (length, 1),
        };
        lengths.resize(lengths.len() + count, value);
    }
    let (a, b) = lengths.split_at(letters);
    (Code::new(a), Code::new(b))
}

/// Unpacks one part of a stream.
fn copy(bits: &mut Bits, letters: &Code, distances: &Code, out: &mut Vec<u8>) {
    loop {
        let symbol = bits.symbol(letters);
        let length = match symbol {
            0..=255 => {
                out.push(symbol as u8);
                continue;
            }
            256 => return,
            285 => 258,
            _ => grown(bits, symbol - 257, 4) + 3,
        };
        let symbol = bits.symbol(distances);
        let distance = grown(bits, symbol, 2) + 1;
        for _ in 0..length {
            out.push(out[out.len() - distance]);
        }
    }
}

/// A number whose class is given: `step` classes for each further bit that follows.
fn grown(bits: &mut Bits, class: usize, step: usize) -> usize {
    match class < 2 * step {
        true => class,
        false => {
            let more = class / step - 1;
            ((step + class % step) << more) + bits.number(more)
        }
    }
}
