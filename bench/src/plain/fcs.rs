//! The frame check: the usual table of 256, and eight such tables for eight octets a turn.

/// A frame check that a header reader is given; each has a reader of its own compiled for it.
pub trait FrameCheck: Fn(&[u8]) -> u32 + Copy {}

impl<F: Fn(&[u8]) -> u32 + Copy> FrameCheck for F {}

const TABLES: [[u32; 256]; 8] = tables();

/// The register after `count` zero octets behind each octet.
const fn tables() -> [[u32; 256]; 8] {
    let mut tables = [[0; 256]; 8];
    let mut octet = 0;
    while octet < 256 {
        let mut register = octet as u32;
        let mut bit = 0;
        while bit < 8 {
            register = if register & 1 == 1 { (register >> 1) ^ 0xEDB8_8320 } else { register >> 1 };
            bit += 1;
        }
        tables[0][octet] = register;
        octet += 1;
    }
    let mut table = 1;
    while table < 8 {
        let mut octet = 0;
        while octet < 256 {
            let before = tables[table - 1][octet];
            tables[table][octet] = (before >> 8) ^ tables[0][(before & 0xFF) as usize];
            octet += 1;
        }
        table += 1;
    }
    tables
}

static TABLE: [u32; 256] = TABLES[0];
static EIGHT: [[u32; 256]; 8] = TABLES;

fn carried_on(register: u32, octets: &[u8]) -> u32 {
    octets.iter().fold(register, |register, octet| (register >> 8) ^ TABLE[((register ^ u32::from(*octet)) & 0xFF) as usize])
}

#[inline(never)]
pub fn frame_check(octets: &[u8]) -> u32 {
    !carried_on(0xFFFF_FFFF, octets)
}

#[inline(never)]
pub fn frame_check_by_eight(octets: &[u8]) -> u32 {
    let mut register = 0xFFFF_FFFF_u32;
    let mut turns = octets.chunks_exact(8);
    for turn in &mut turns {
        let low = register ^ u32::from_le_bytes([turn[0], turn[1], turn[2], turn[3]]);
        let [a, b, c, d] = low.to_le_bytes().map(usize::from);
        register = EIGHT[7][a] ^ EIGHT[6][b] ^ EIGHT[5][c] ^ EIGHT[4][d];
        let [e, f, g, h] = [turn[4], turn[5], turn[6], turn[7]].map(usize::from);
        register ^= EIGHT[3][e] ^ EIGHT[2][f] ^ EIGHT[1][g] ^ EIGHT[0][h];
    }
    !carried_on(register, turns.remainder())
}
