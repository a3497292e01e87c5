//! Reading a control packet in Rust, its CRC in a plain register: one bit a step, no branch and no table.

/// The remainder of the first 56 bits by x^8+x^2+x+1.
fn crc(h4: &[u8; 16]) -> u8 {
    let mut rest: u8 = 0;
    for byte in &h4[..14] {
        for bit in (4..8).rev() {
            let out = (rest >> 7 ^ byte >> bit) & 1;
            rest = rest << 1 ^ out.wrapping_neg() & 0x07;
        }
    }
    rest
}

fn two(h4: &[u8; 16], place: usize) -> u8 {
    h4[place] & 0xF0 | h4[place + 1] >> 4
}

fn read(h4: &[u8], fields: &mut [u8]) -> u8 {
    let (Ok(h4), Ok(fields)) = (<&[u8; 16]>::try_from(h4), <&mut [u8; 10]>::try_from(fields)) else {
        return 9;
    };
    if two(h4, 14) != crc(h4) {
        return 5;
    }
    let word = h4[10] >> 4;
    match word {
        0 => return 7,
        1 | 2 | 3 | 5 | 15 => {}
        _ => return 6,
    }
    let reserved =
        u32::from(h4[2] >> 5) << 23 | u32::from(two(h4, 3)) << 15 | u32::from(h4[5] >> 4) << 11 | u32::from(h4[11] >> 5) << 8 | u32::from(two(h4, 12));
    fields[..6].copy_from_slice(&[two(h4, 8), word, h4[11] >> 4 & 1, two(h4, 0), h4[2] >> 4 & 1, two(h4, 6)]);
    fields[6..].copy_from_slice(&reserved.to_be_bytes());
    0
}

/// # Safety
/// Both buffers are the caller's, of these lengths.
#[no_mangle]
pub unsafe extern "C" fn rust_bits_read(h4: *const u8, h4_length: usize, fields: *mut u8, fields_length: usize) -> u8 {
    read(std::slice::from_raw_parts(h4, h4_length), std::slice::from_raw_parts_mut(fields, fields_length))
}
