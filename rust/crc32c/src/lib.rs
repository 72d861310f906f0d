//! Stand-in for the crc32c library that the original calls: `crc32c_append` continues a
//! finished checksum (register inverted) and gives a finished one.
//!
//! Bit by bit, without a table, so that it shares nothing with the table under test. The
//! bench asks for the quicker forms, since the real library is quick.

#[cfg(not(any(feature = "table", feature = "hardware")))]
pub fn crc32c_append(crc: u32, data: &[u8]) -> u32 {
    let mut register = !crc;
    for &byte in data {
        register = eight_steps(register ^ u32::from(byte));
    }
    !register
}

/// Eight times: halve, and xor in the reflected polynomial where the register was odd.
#[allow(dead_code)]
const fn eight_steps(mut register: u32) -> u32 {
    let mut step = 0;
    while step < 8 {
        register = if register & 1 == 1 { (register >> 1) ^ 0x82f6_3b78 } else { register >> 1 };
        step += 1;
    }
    register
}

#[cfg(all(feature = "table", not(feature = "hardware")))]
pub fn crc32c_append(crc: u32, data: &[u8]) -> u32 {
    const fn table() -> [u32; 256] {
        let mut rows = [0; 256];
        let mut i = 0;
        while i < 256 {
            rows[i] = eight_steps(i as u32);
            i += 1;
        }
        rows
    }
    static TABLE: [u32; 256] = table();
    let mut register = !crc;
    for &byte in data {
        register = (register >> 8) ^ TABLE[((register ^ u32::from(byte)) & 255) as usize];
    }
    !register
}

#[cfg(feature = "hardware")]
pub fn crc32c_append(crc: u32, data: &[u8]) -> u32 {
    use std::arch::x86_64::{_mm_crc32_u64, _mm_crc32_u8};
    #[target_feature(enable = "sse4.2")]
    unsafe fn run(register: u32, data: &[u8]) -> u32 {
        let mut words = data.chunks_exact(8);
        let mut register = u64::from(register);
        for word in &mut words {
            register = _mm_crc32_u64(register, u64::from_le_bytes(word.try_into().unwrap()));
        }
        words.remainder().iter().fold(register as u32, |r, &byte| _mm_crc32_u8(r, byte))
    }
    assert!(std::is_x86_feature_detected!("sse4.2"));
    !unsafe { run(!crc, data) }
}
