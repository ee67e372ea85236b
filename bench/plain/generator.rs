//! The bytes that both programs work on: noise for the checksum, a stream of groups for the decoder, and one for the log
//! that is recovered. Each run makes the same ones.

const NOISE_LENGTH: usize = 64 << 20;
const GROUPS: usize = 100_000;

pub const SINGLE: u8 = 0x80;
pub const END_MARK: u8 = 31;
pub const STRING: u8 = 30;
pub const INIT: u8 = 59;

const SPACE: u32 = 1;
const FIRST_OFFSET: u32 = 38;
const LONGEST_STRING: u32 = 40;

/// How many pages and how many offsets are drawn from.
#[derive(Clone, Copy)]
pub struct Spots {
    pub pages: u32,
    pub offsets: u32,
}

/// Those of a store of 64 pages of 4,096 bytes, and of one of 1,024 pages of 16,384 bytes.
pub const SPOTS: Spots = Spots {
    pages: 64,
    offsets: 4_000,
};
pub const LARGE_SPOTS: Spots = Spots {
    pages: 1_024,
    offsets: 16_200,
};

/// A linear congruential generator with the constants of Knuth's MMIX.
pub struct Draws(pub u64);

impl Draws {
    pub fn draw(&mut self) -> u32 {
        self.0 = self
            .0
            .wrapping_mul(6_364_136_223_846_793_005)
            .wrapping_add(1_442_695_040_888_963_407);
        (self.0 >> 32) as u32
    }

    pub fn below(&mut self, limit: u32) -> u32 {
        self.draw() % limit
    }
}

pub fn noise() -> Vec<u8> {
    let mut draws = Draws(1);
    (0..NOISE_LENGTH / 4)
        .flat_map(|_| draws.draw().to_be_bytes())
        .collect()
}

/// Groups of five kinds, each drawn as often: a number of one byte, two records, a string, a number of eight bytes, and
/// a page that is set to 0.
pub fn groups() -> Vec<u8> {
    let mut draws = Draws(2);
    let mut stream = Vec::new();
    for _ in 0..GROUPS {
        match draws.below(5) {
            0 => put_number(&mut stream, SINGLE, 1, SPOTS, &mut draws),
            1 => {
                put_number(&mut stream, 0, 2, SPOTS, &mut draws);
                put_number(&mut stream, 0, 4, SPOTS, &mut draws);
                stream.push(END_MARK);
            }
            2 => put_string(&mut stream, SPOTS, &mut draws),
            3 => put_number(&mut stream, SINGLE, 8, SPOTS, &mut draws),
            _ => put_page(&mut stream, SINGLE | INIT, SPOTS, &mut draws),
        }
    }
    stream
}

/// Groups of the first four of these kinds, so many bytes of them and a few more.
pub fn small_groups(length: usize, spots: Spots) -> Vec<u8> {
    let mut draws = Draws(3);
    let mut stream = Vec::new();
    while stream.len() < length {
        match draws.below(4) {
            0 => put_number(&mut stream, SINGLE, 1, spots, &mut draws),
            1 => {
                put_number(&mut stream, 0, 2, spots, &mut draws);
                put_number(&mut stream, 0, 4, spots, &mut draws);
                stream.push(END_MARK);
            }
            2 => put_string(&mut stream, spots, &mut draws),
            _ => put_number(&mut stream, SINGLE, 8, spots, &mut draws),
        }
    }
    stream
}

/// Groups of two strings of 4,000 bytes, at most so many bytes of them.
pub fn large_groups(length: usize) -> Vec<u8> {
    let mut draws = Draws(4);
    let mut stream = Vec::new();
    while stream.len() + 8_192 <= length {
        for _ in 0..2 {
            put_page(&mut stream, STRING, SPOTS, &mut draws);
            stream.extend((FIRST_OFFSET as u16).to_be_bytes());
            stream.extend(4_000u16.to_be_bytes());
            let byte = draws.draw() as u8;
            stream.extend([byte; 4_000]);
        }
        stream.push(END_MARK);
    }
    stream
}

fn put_number(stream: &mut Vec<u8>, flag: u8, width: u8, spots: Spots, draws: &mut Draws) {
    put_spot(stream, flag | width, spots, draws);
    match width {
        1 => put_spelled(stream, draws.below(1 << 8)),
        2 => put_spelled(stream, draws.below(1 << 16)),
        4 => put_spelled(stream, draws.draw()),
        _ => {
            put_spelled(stream, draws.draw());
            stream.extend(draws.draw().to_be_bytes());
        }
    }
}

fn put_string(stream: &mut Vec<u8>, spots: Spots, draws: &mut Draws) {
    put_spot(stream, SINGLE | STRING, spots, draws);
    let length = 1 + draws.below(LONGEST_STRING);
    stream.extend((length as u16).to_be_bytes());
    stream.extend((0..length).map(|_| draws.draw() as u8));
}

fn put_spot(stream: &mut Vec<u8>, kind: u8, spots: Spots, draws: &mut Draws) {
    put_page(stream, kind, spots, draws);
    let offset = FIRST_OFFSET + draws.below(spots.offsets);
    stream.extend((offset as u16).to_be_bytes());
}

fn put_page(stream: &mut Vec<u8>, kind: u8, spots: Spots, draws: &mut Draws) {
    stream.push(kind);
    put_spelled(stream, SPACE);
    put_spelled(stream, draws.below(spots.pages));
}

pub fn put_spelled(stream: &mut Vec<u8>, n: u32) {
    match n {
        0..=0x7F => stream.push(n as u8),
        0x80..=0x3FFF => stream.extend((n as u16 | 0x8000).to_be_bytes()),
        0x4000..=0x1F_FFFF => stream.extend(&(n | 0xC0_0000).to_be_bytes()[1..]),
        0x20_0000..=0x0FFF_FFFF => stream.extend((n | 0xE000_0000).to_be_bytes()),
        0x1000_0000..=0xFEFF_FFFF => {
            stream.push(0xF0);
            stream.extend(n.to_be_bytes());
        }
        0xFF00_0000..=0xFFFD_FFFF => stream.extend((n & 0xFF_FFFF | 0xFE00_0000).to_be_bytes()),
        0xFFFE_0000..=0xFFFF_FBFF => stream.extend(&(n & 0x1_FFFF | 0xFC_0000).to_be_bytes()[1..]),
        0xFFFF_FC00.. => stream.extend((n as u16 & 0x3FF | 0xF800).to_be_bytes()),
    }
}
