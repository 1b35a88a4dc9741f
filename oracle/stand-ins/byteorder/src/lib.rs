//! Stand-in for the crate byteorder: reading one little-endian 64-bit word.

pub trait ByteOrder {
    fn read_u64(buf: &[u8]) -> u64;
}

pub enum LittleEndian {}

impl ByteOrder for LittleEndian {
    /// Panics, as the crate does, if there are fewer than eight bytes.
    fn read_u64(buf: &[u8]) -> u64 {
        let mut bytes = [0; 8];
        bytes.copy_from_slice(&buf[..8]);
        u64::from_le_bytes(bytes)
    }
}
