//! CRC-32C by slicing, eight bytes at a time by eight tables of 256 entries.

const POLYNOMIAL: u32 = 0x82F6_3B78;

static TABLES: [[u32; 256]; 8] = tables();

const fn tables() -> [[u32; 256]; 8] {
    let mut tables = [[0; 256]; 8];
    let mut place = 0;
    while place < 256 {
        let mut register = place as u32;
        let mut zeros = 0;
        while zeros < 8 {
            let mut bit = 0;
            while bit < 8 {
                register = if register & 1 == 1 {
                    register >> 1 ^ POLYNOMIAL
                } else {
                    register >> 1
                };
                bit += 1;
            }
            tables[zeros][place] = register;
            zeros += 1;
        }
        place += 1;
    }
    tables
}

pub fn crc32c(bytes: &[u8]) -> u32 {
    let mut register = u32::MAX;
    let mut eights = bytes.chunks_exact(8);
    for eight in &mut eights {
        let low = register ^ u32::from_le_bytes([eight[0], eight[1], eight[2], eight[3]]);
        register = TABLES[7][(low & 0xFF) as usize]
            ^ TABLES[6][(low >> 8 & 0xFF) as usize]
            ^ TABLES[5][(low >> 16 & 0xFF) as usize]
            ^ TABLES[4][(low >> 24) as usize]
            ^ TABLES[3][usize::from(eight[4])]
            ^ TABLES[2][usize::from(eight[5])]
            ^ TABLES[1][usize::from(eight[6])]
            ^ TABLES[0][usize::from(eight[7])];
    }
    for byte in eights.remainder() {
        register = TABLES[0][usize::from(register as u8 ^ byte)] ^ register >> 8;
    }
    register ^ u32::MAX
}
