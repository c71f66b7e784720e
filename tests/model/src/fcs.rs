//! The frame check, one bit at a time: CRC-32 of IEEE 802.3.

/// Start FFFFFFFF, reflected polynomial EDB88320, result inverted.
pub fn frame_check(octets: &[u8]) -> u32 {
    let mut register = 0xFFFF_FFFF_u32;
    for octet in octets {
        register ^= u32::from(*octet);
        for _ in 0..8 {
            let out = register & 1;
            register >>= 1;
            if out == 1 {
                register ^= 0xEDB8_8320;
            }
        }
    }
    !register
}

#[cfg(test)]
mod tests {
    use super::frame_check;

    #[test]
    fn measured_by_hand() {
        assert_eq!(frame_check(&[]), 0);
        assert_eq!(frame_check(&[0x00]), 0xD202_EF8D);
        assert_eq!(frame_check(&[0xFF]), 0xFF00_0000);
        assert_eq!(frame_check(b"123456789"), 0xCBF4_3926);
    }
}
