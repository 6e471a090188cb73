//! Decrypts a list of blocks in threads: each decrypts a part, and all share one cipher.

use cukvashe_des::{Block, BlockCipher, TdesEde3};
use std::num::NonZeroUsize;
use std::thread;

/// The calls take 256 blocks at a time, or 128, so the parts are multiples of 256 blocks. The last one is what is left.
fn decrypt_in(threads: NonZeroUsize, cipher: &TdesEde3, blocks: &mut [Block]) {
    let part = blocks.len().div_ceil(threads.get()).next_multiple_of(256).max(256);
    thread::scope(|scope| {
        for blocks in blocks.chunks_mut(part) {
            scope.spawn(|| cipher.decrypt_blocks(blocks));
        }
    });
}

fn main() -> Result<(), Box<dyn std::error::Error>> {
    let key = [0x0123456789abcdefu64, 0x23456789abcdef01, 0x456789abcdef0123].map(u64::to_be_bytes);
    let sealed = [0xa826fd8ce53b855fu64, 0xcce21c8112256fe6, 0x68d5c05dd9b6b900].map(u64::to_be_bytes);
    let cipher = TdesEde3::new_from_slice(key.as_flattened())?;
    // thread::available_parallelism() says how many threads run at once on this machine.
    for threads in (1..=4).filter_map(NonZeroUsize::new) {
        // The three blocks over and over, in lists of many lengths.
        for count in [0, 3, 256, 1000, 1025, 100_000] {
            let mut blocks: Vec<Block> = sealed.into_iter().cycle().take(count).collect();
            decrypt_in(threads, &cipher, &mut blocks);
            let text = b"The qufck brown fox jump".chunks(8).cycle();
            assert!(blocks.iter().zip(text).all(|(block, part)| block == part));
        }
    }
    println!("each list is the text over and over");
    Ok(())
}

// NIST SP 800-67, Appendix B, has the key, the blocks and the text.
// $ cargo run -q --manifest-path bindings/rust/Cargo.toml --example threads
// each list is the text over and over
