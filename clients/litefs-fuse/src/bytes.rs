//! Little-endian numbers in messages. Behind the end of the bytes there are zeros.

/// The four bytes at `at` as a number.
pub fn u32_at(bytes: &[u8], at: usize) -> u32 {
    let mut word = [0; 4];
    copy_at(bytes, at, &mut word);
    u32::from_le_bytes(word)
}

/// The eight bytes at `at` as a number.
pub fn u64_at(bytes: &[u8], at: usize) -> u64 {
    let mut word = [0; 8];
    copy_at(bytes, at, &mut word);
    u64::from_le_bytes(word)
}

/// Puts a number of four bytes at `at`, where it fits.
pub fn put_u32(bytes: &mut [u8], at: usize, value: u32) {
    put(bytes, at, &value.to_le_bytes());
}

/// Puts a number of eight bytes at `at`, where it fits.
pub fn put_u64(bytes: &mut [u8], at: usize, value: u64) {
    put(bytes, at, &value.to_le_bytes());
}

fn put(bytes: &mut [u8], at: usize, value: &[u8]) {
    if let Some(place) = bytes.get_mut(at..at + value.len()) {
        place.copy_from_slice(value);
    }
}

fn copy_at(bytes: &[u8], at: usize, into: &mut [u8]) {
    for (k, byte) in into.iter_mut().enumerate() {
        *byte = bytes.get(at + k).copied().unwrap_or(0);
    }
}

#[cfg(test)]
mod tests {
    use super::*;

    #[test]
    fn numbers_are_little_endian_and_zeros_follow_the_end() {
        let bytes = [1, 2, 3, 4, 5];
        assert_eq!(u32_at(&bytes, 0), 0x0403_0201);
        assert_eq!(u64_at(&bytes, 3), 0x0504);
        assert_eq!(u32_at(&bytes, 9), 0);
    }

    #[test]
    fn a_number_is_put_whole_or_not_at_all() {
        let mut bytes = [9; 6];
        put_u32(&mut bytes, 1, 0x0403_0201);
        put_u32(&mut bytes, 4, 7);
        assert_eq!(bytes, [9, 1, 2, 3, 4, 9]);
    }
}
