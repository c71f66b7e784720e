//! zlib's crc32, where its header is installed.

use crate::FrameCheck;

#[cfg(zlib)]
pub const CRC32: Option<FrameCheck> = Some(crc32_of);
#[cfg(not(zlib))]
pub const CRC32: Option<FrameCheck> = None;

#[cfg(zlib)]
extern "C" {
    fn crc32(crc: std::ffi::c_ulong, octets: *const u8, length: std::ffi::c_uint) -> std::ffi::c_ulong;
}

#[cfg(zlib)]
fn crc32_of(octets: &[u8]) -> u32 {
    // SAFETY: the octets are readable for their length
    unsafe { crc32(0, octets.as_ptr(), octets.len() as std::ffi::c_uint) as u32 }
}
