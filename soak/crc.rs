//! CRC-32C, and which sectors and pages fit their checksums.

pub const SECTOR: usize = 512;

const fn table_of() -> [[u32; 256]; 8] {
    let mut table = [[0; 256]; 8];
    let mut byte = 0;
    while byte < 256 {
        let mut register = byte as u32;
        let mut bit = 0;
        while bit < 8 {
            register = register >> 1 ^ (register & 1) * 0x82F6_3B78;
            bit += 1;
        }
        table[0][byte] = register;
        byte += 1;
    }
    let mut row = 1;
    while row < 8 {
        let mut byte = 0;
        while byte < 256 {
            let last = table[row - 1][byte];
            table[row][byte] = last >> 8 ^ table[0][(last & 255) as usize];
            byte += 1;
        }
        row += 1;
    }
    table
}

static TABLE: [[u32; 256]; 8] = table_of();

/// CRC-32C, eight bytes at a time.
pub fn crc32c(bytes: &[u8]) -> u32 {
    let mut register = u32::MAX;
    let (eights, rest) = bytes.as_chunks::<8>();
    for eight in eights {
        let mixed = u64::from_le_bytes(*eight) ^ u64::from(register);
        register = (0..8).fold(0, |sum, place| {
            sum ^ TABLE[7 - place][(mixed >> (8 * place) & 255) as usize]
        });
    }
    for byte in rest {
        register = register >> 8 ^ TABLE[0][((register ^ u32::from(*byte)) & 255) as usize];
    }
    !register
}

/// The number that stands there, highest byte first.
pub fn field(bytes: &[u8], at: usize, length: usize) -> u64 {
    let digits = &bytes[at..at + length];
    digits
        .iter()
        .fold(0, |sum, byte| sum << 8 | u64::from(*byte))
}

/// Puts a number there, highest byte first.
pub fn put_field(bytes: &mut [u8], at: usize, length: usize, value: u64) {
    bytes[at..at + length].copy_from_slice(&value.to_be_bytes()[8 - length..]);
}

/// Whether the sector's last four bytes are the checksum of those before.
pub fn fits_sector(sector: &[u8]) -> bool {
    field(sector, SECTOR - 4, 4) == u64::from(crc32c(&sector[..SECTOR - 4]))
}

pub fn seal_sector(sector: &mut [u8]) {
    let sum = crc32c(&sector[..SECTOR - 4]);
    put_field(sector, SECTOR - 4, 4, u64::from(sum));
}

fn is_blank(page: &[u8]) -> bool {
    page.iter().all(|byte| *byte == 0)
}

/// Whether a page's checksums and its lsn fit.
fn is_sound(page: &[u8]) -> bool {
    let end = page.len();
    let sum = u64::from(crc32c(&page[4..end - 8]));
    field(page, 0, 4) == sum
        && field(page, end - 8, 4) == sum
        && field(page, end - 4, 4) == field(page, 20, 4)
}

/// Whether a page counts as one: all zero, or with checksums and an lsn that fit.
pub fn fits_page(page: &[u8]) -> bool {
    is_blank(page) || is_sound(page)
}

/// Whether a slot holds a copy that passes for the page of this number.
pub fn is_copy(page: &[u8], number: u32, space: u32) -> bool {
    field(page, 4, 4) == number.into() && field(page, 34, 4) == space.into() && is_sound(page)
}

/// Whether what stands in the place of the page of this number passes.
pub fn is_place(page: &[u8], number: u32, space: u32) -> bool {
    is_blank(page) || is_copy(page, number, space)
}
