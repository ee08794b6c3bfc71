//! The C functions of crates/host/out/libhost.a behind safe ones.

#![allow(dead_code)]

unsafe extern "C" {
    fn lane_fsk_widths(bytes: *mut u8, len: usize) -> u32;
    safe fn lane_sqrt(bits: u32) -> u32;
}

/// The square root of the f32 with these bits.
pub fn sqrt(bits: u32) -> u32 {
    lane_sqrt(bits)
}

/// The FSK widths of the little-endian slots in `bytes`, in place: 0, or 9 and nothing changed.
pub fn fsk_widths_of_bytes(bytes: &mut [u8]) -> u32 {
    // The function reads and writes these bytes alone and keeps no pointer to them.
    unsafe { lane_fsk_widths(bytes.as_mut_ptr(), bytes.len()) }
}

/// The FSK widths of a slot list, in place; Err has the refusal's number.
pub fn fsk_widths(slots: &mut [u32]) -> Result<(), u32> {
    let mut bytes: Vec<u8> = slots.iter().flat_map(|s| s.to_le_bytes()).collect();
    let reply = fsk_widths_of_bytes(&mut bytes);
    for (slot, word) in slots.iter_mut().zip(bytes.chunks_exact(4)) {
        *slot = u32::from_le_bytes(word.try_into().unwrap());
    }
    if reply == 0 { Ok(()) } else { Err(reply) }
}
