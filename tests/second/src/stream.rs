//! The binary stream that the program `runs` reads: for each case a byte for its
//! kind, and three times bytes, each with their length before them as four bytes,
//! lowest first.

/// A case of the stream: its kind and its bytes.
#[derive(Clone, Debug, PartialEq, Eq)]
pub struct Packed {
    pub kind: u8,
    pub bytes: [Vec<u8>; 3],
}

impl Packed {
    /// The case as it stands in the stream.
    pub fn stream(&self) -> Vec<u8> {
        let mut stream = vec![self.kind];
        for bytes in &self.bytes {
            let length = u32::try_from(bytes.len()).expect("a length of four bytes");
            stream.extend(length.to_le_bytes());
            stream.extend(bytes);
        }
        stream
    }
}

#[cfg(test)]
mod tests {
    use super::*;

    #[test]
    fn lengths_stand_before_bytes() {
        let packed = |bytes| Packed { kind: b'l', bytes };
        let empty = packed([vec![], vec![], vec![]]).stream();
        assert_eq!(empty, [b'l', 0, 0, 0, 0, 0, 0, 0, 0, 0, 0, 0, 0]);
        let stream = packed([vec![7], vec![], vec![9; 70_000]]).stream();
        assert_eq!(stream.len(), 13 + 1 + 70_000);
        let start = [b'l', 1, 0, 0, 0, 7, 0, 0, 0, 0, 0x70, 0x11, 1, 0, 9];
        assert_eq!(&stream[..15], start);
    }
}
