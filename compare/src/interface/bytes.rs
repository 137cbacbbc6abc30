//! Lists and their bytes, lowest byte first.

use super::{NUMBER_BYTES, POSITION_BYTES};

/// What 32 bits leave of a count.
pub fn as_number(count: usize) -> u32 {
    count as u32
}

/// The starts, columns or degrees in these bytes.
pub fn numbers(bytes: &[u8]) -> Vec<u32> {
    bytes.as_chunks::<NUMBER_BYTES>().0.iter().map(|&number| u32::from_le_bytes(number)).collect()
}

/// The bytes of starts, columns or degrees.
pub fn number_bytes(list: &[u32]) -> Vec<u8> {
    list.iter().map(|element| element.to_le_bytes()).collect::<Vec<_>>().into_flattened()
}

/// The positions in these bytes.
pub fn positions(bytes: &[u8]) -> Vec<u16> {
    bytes.as_chunks::<POSITION_BYTES>().0.iter().map(|&at| u16::from_le_bytes(at)).collect()
}

pub fn position_bytes(list: &[u16]) -> Vec<u8> {
    list.iter().map(|element| element.to_le_bytes()).collect::<Vec<_>>().into_flattened()
}

pub fn f32_list(bytes: &[u8]) -> Vec<f32> {
    let elements = bytes.chunks_exact(4);
    elements.map(|b| f32::from_le_bytes([b[0], b[1], b[2], b[3]])).collect()
}

pub fn i32_bytes(list: &[i32]) -> Vec<u8> {
    list.iter().map(|element| element.to_le_bytes()).collect::<Vec<_>>().into_flattened()
}

pub fn f32_bytes(list: &[f32]) -> Vec<u8> {
    list.iter().map(|element| element.to_le_bytes()).collect::<Vec<_>>().into_flattened()
}

#[cfg(test)]
mod tests {
    use super::*;

    #[test]
    fn numbers_and_their_bytes() {
        let list = [0, 0x0102_0304, u32::MAX];
        let bytes = number_bytes(&list);
        assert_eq!(bytes, [0, 0, 0, 0, 4, 3, 2, 1, 255, 255, 255, 255]);
        assert_eq!(numbers(&bytes), list);
        // A part of an element counts for nothing.
        assert_eq!(numbers(&bytes[..bytes.len() - 1]), list[..2]);
        assert_eq!(as_number(usize::MAX), u32::MAX);
        assert_eq!(as_number(u32::MAX as usize + 3), 2);
    }

    #[test]
    fn positions_and_their_bytes() {
        let list = [0, 0x0102, u16::MAX];
        let bytes = position_bytes(&list);
        assert_eq!(bytes, [0, 0, 2, 1, 255, 255]);
        assert_eq!(positions(&bytes), list);
        assert_eq!(positions(&bytes[..bytes.len() - 1]), list[..2]);
    }
}
