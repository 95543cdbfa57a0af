// The measured loop in plain Rust: the same memory, the same checks, the same addresses.
use std::time::Instant;

const FRAMES: usize = 4096;
const WORDS: u64 = 10_000_000;
const LAST_WORD: u64 = 4096 * 4096 - 8;

struct Memory {
    frames: Vec<[u8; 4096]>,
}

impl Memory {
    fn new() -> Memory {
        Memory { frames: vec![[0; 4096]; FRAMES] }
    }

    fn load_u64(&self, address: u64) -> Option<u64> {
        if address % 8 != 0 {
            return None;
        }
        let frame = self.frames.get((address / 4096) as usize)?;
        let offset = (address % 4096) as usize;
        Some(u64::from_le_bytes(frame[offset..offset + 8].try_into().unwrap()))
    }

    fn store_u64(&mut self, address: u64, value: u64) -> Option<()> {
        if address % 8 != 0 {
            return None;
        }
        let frame = self.frames.get_mut((address / 4096) as usize)?;
        let offset = (address % 4096) as usize;
        frame[offset..offset + 8].copy_from_slice(&value.to_le_bytes());
        Some(())
    }
}

// Loads the word at each address, and stores it with the count added.
fn pass(memory: &mut Memory, stride: u64) -> Option<u64> {
    let mut sum = 0u64;
    for count in 0..WORDS {
        let address = count.wrapping_mul(stride) & LAST_WORD;
        let word = memory.load_u64(address)?;
        memory.store_u64(address, word.wrapping_add(count))?;
        sum = sum.wrapping_add(word);
    }
    Some(sum)
}

fn main() {
    let begun = Instant::now();
    let mut memory = Memory::new();
    println!("build {}", begun.elapsed().as_micros());
    for (name, stride) in [("in-order", 8), ("scattered", 0x9e37_79b9_7f4a_7c10)] {
        let begun = Instant::now();
        let sum = pass(&mut memory, stride).unwrap_or(0);
        println!("{name} {} sum {sum}", begun.elapsed().as_micros());
    }
}
