//! As much of the crate byteorder as the program asks for: numbers with their lowest byte first.
pub trait ByteOrder {
    fn read_u16(bytes: &[u8]) -> u16;
    fn read_u32(bytes: &[u8]) -> u32;
    fn read_u64(bytes: &[u8]) -> u64;
    fn write_u16(bytes: &mut [u8], number: u16);
    fn write_u32(bytes: &mut [u8], number: u32);
    fn write_u64(bytes: &mut [u8], number: u64);
    fn write_u64_into(numbers: &[u64], bytes: &mut [u8]) {
        for (number, place) in numbers.iter().zip(bytes.chunks_exact_mut(8)) {
            Self::write_u64(place, *number);
        }
    }
}

pub enum LittleEndian {}

macro_rules! numbers {
    ($($number:ty, $size:literal, $read:ident, $write:ident;)*) => {
        impl ByteOrder for LittleEndian {
            $(#[inline]
            fn $read(bytes: &[u8]) -> $number {
                <$number>::from_le_bytes(bytes[..$size].try_into().unwrap())
            }
            #[inline]
            fn $write(bytes: &mut [u8], number: $number) {
                bytes[..$size].copy_from_slice(&number.to_le_bytes());
            })*
        }
    };
}

numbers! {
    u16, 2, read_u16, write_u16;
    u32, 4, read_u32, write_u32;
    u64, 8, read_u64, write_u64;
}
