// The measured loop in plain Rust: the same tables, the same checks, the same addresses.
use std::time::Instant;

const WALKS: u64 = 10_000_000;

#[derive(Clone, Copy, PartialEq)]
enum Kind {
    #[allow(dead_code)]
    Read,
    Write,
}

enum Fault {
    Page,
    Access,
}

struct Memory {
    frames: Vec<[u8; 4096]>,
}

impl Memory {
    fn load_u64(&self, address: u64) -> Option<u64> {
        if address % 8 != 0 {
            return None;
        }
        let frame = self.frames.get((address / 4096) as usize)?;
        let offset = (address % 4096) as usize;
        Some(u64::from_le_bytes(frame[offset..offset + 8].try_into().unwrap()))
    }

    fn store_u64(&mut self, address: u64, value: u64) {
        let offset = (address % 4096) as usize;
        self.frames[(address / 4096) as usize][offset..offset + 8].copy_from_slice(&value.to_le_bytes());
    }
}

const V: u64 = 1;
const R: u64 = 2;
const W: u64 = 4;
const X: u64 = 8;
const U: u64 = 16;
const A: u64 = 64;
const D: u64 = 128;

fn walk_first(memory: &Memory, root: u64, address: u64, kind: Kind) -> Result<(u32, bool), Fault> {
    let high = address >> 38;
    if high != 0 && high != 0x3ff_ffff {
        return Err(Fault::Page);
    }
    let mut table = root;
    for level in (0..3).rev() {
        let index = address >> (12 + 9 * level) & 511;
        let word = memory.load_u64(4096 * table + 8 * index).ok_or(Fault::Access)?;
        if word & V == 0 || word & (R | W) == W || word >> 54 != 0 {
            return Err(Fault::Page);
        }
        let page = word >> 10 & ((1 << 44) - 1);
        if word & (R | X) == 0 {
            if word & (A | D | U) != 0 {
                return Err(Fault::Page);
            }
            table = page;
            continue;
        }
        let writes = word & (W | D) == W | D;
        let below = (1 << (9 * level)) - 1;
        if word & (R | U | A) != R | U | A || page & below != 0 || (kind == Kind::Write && !writes) {
            return Err(Fault::Page);
        }
        let frame = page + (address >> 12 & below);
        if frame >= memory.frames.len() as u64 {
            return Err(Fault::Access);
        }
        return Ok((frame as u32, writes));
    }
    Err(Fault::Page)
}

fn pass(memory: &Memory, stride: u64) -> u64 {
    let mut sum = 0u64;
    for count in 0..WALKS {
        let address = count.wrapping_mul(stride) & 0x1f_ffff;
        if let Ok((frame, _)) = walk_first(memory, 1, address, Kind::Write) {
            sum = sum.wrapping_add(u64::from(frame));
        }
    }
    sum
}

fn main() {
    let mut memory = Memory { frames: vec![[0; 4096]; 2048] };
    memory.store_u64(0x1000, 2 << 10 | 1);
    memory.store_u64(0x2000, 3 << 10 | 1);
    for page in 0..512 {
        memory.store_u64(0x3000 + 8 * page, (16 + page) << 10 | 0xd7);
    }
    for (name, stride) in [("in-order", 4096), ("scattered", 0x9e37_79b9_7f4a_7c15)] {
        let begun = Instant::now();
        let sum = pass(&memory, stride);
        println!("{name} {} sum {sum}", begun.elapsed().as_micros());
    }
}
