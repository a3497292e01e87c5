//! The reference's reading of a control packet, as a C call; beside it one whose CRC goes bit by bit.

mod packet_bits;

/// # Safety
/// Both buffers are the caller's, of these lengths.
#[no_mangle]
pub unsafe extern "C" fn rust_read(h4: *const u8, h4_length: usize, fields: *mut u8, fields_length: usize) -> u8 {
    reference::packet::read(std::slice::from_raw_parts(h4, h4_length), std::slice::from_raw_parts_mut(fields, fields_length))
}
