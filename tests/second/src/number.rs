//! The numbers inside items: groups of seven bits, lowest group first, the
//! shortest form only, at most two bytes.

/// A group of seven bits has so many values.
const GROUP: usize = 128;
/// The largest number that two bytes hold.
pub const LARGEST: usize = GROUP * GROUP - 1;

/// What can be wrong with the bytes of a number.
#[derive(Clone, Copy, Debug, PartialEq, Eq)]
pub enum Fault {
    /// The bytes end before the number does (refusal 3).
    Ends,
    /// The number is not in its shortest form, or its second byte says that
    /// yet another follows (refusal 4).
    Form,
}

/// Reads the number at the start of `bytes`. Gives its value and how many
/// bytes it takes.
pub fn read(bytes: &[u8]) -> Result<(usize, usize), Fault> {
    let first = *bytes.first().ok_or(Fault::Ends)?;
    let first = first as usize;
    if first < GROUP {
        return Ok((first, 1));
    }
    let second = *bytes.get(1).ok_or(Fault::Ends)? as usize;
    if second >= GROUP {
        return Err(Fault::Form);
    }
    if second == 0 {
        // One byte would do: the higher group adds nothing.
        return Err(Fault::Form);
    }
    Ok((first - GROUP + GROUP * second, 2))
}

/// Splits one number off, or gives the number of the refusal: 3 or 4.
pub fn split(bytes: &[u8]) -> Result<(usize, &[u8]), u8> {
    match read(bytes) {
        Ok((value, length)) => Ok((value, &bytes[length..])),
        Err(Fault::Ends) => Err(3),
        Err(Fault::Form) => Err(4),
    }
}

/// Writes a number in its shortest form.
pub fn write(number: usize, out: &mut Vec<u8>) {
    assert!(number <= LARGEST, "{number} does not fit in two bytes");
    if number < GROUP {
        out.push(number as u8);
    } else {
        out.push((GROUP + number % GROUP) as u8);
        out.push((number / GROUP) as u8);
    }
}

#[cfg(test)]
mod tests {
    use super::*;

    #[test]
    fn every_number_reads_back() {
        for number in 0..=LARGEST {
            let mut bytes = Vec::new();
            write(number, &mut bytes);
            assert_eq!(bytes.len(), if number < 128 { 1 } else { 2 });
            assert_eq!(read(&bytes), Ok((number, bytes.len())));
            // What follows a number does not matter.
            let length = bytes.len();
            bytes.push(0xff);
            assert_eq!(read(&bytes), Ok((number, length)));
        }
    }

    #[test]
    fn every_pair_of_bytes_is_a_number_or_a_fault() {
        for first in 0..=255u8 {
            for second in 0..=255u8 {
                let got = read(&[first, second]);
                let mut again = Vec::new();
                match got {
                    Ok((number, length)) => {
                        write(number, &mut again);
                        assert_eq!(again, [first, second][..length]);
                    }
                    Err(fault) => {
                        assert_eq!(fault, Fault::Form);
                        assert!(first >= 128 && (second == 0 || second >= 128));
                    }
                }
            }
        }
    }

    #[test]
    fn known_forms() {
        assert_eq!(read(&[]), Err(Fault::Ends));
        assert_eq!(read(&[0x80]), Err(Fault::Ends));
        assert_eq!(read(&[0xff]), Err(Fault::Ends));
        assert_eq!(read(&[0x80, 0x00]), Err(Fault::Form));
        assert_eq!(read(&[0x80, 0x80]), Err(Fault::Form));
        assert_eq!(read(&[0x80, 0x80, 0x01]), Err(Fault::Form));
        assert_eq!(read(&[0x7f]), Ok((127, 1)));
        assert_eq!(read(&[0x80, 0x01]), Ok((128, 2)));
        assert_eq!(read(&[0xff, 0x01]), Ok((255, 2)));
        assert_eq!(read(&[0x80, 0x02]), Ok((256, 2)));
        assert_eq!(read(&[0xff, 0x7f]), Ok((16_383, 2)));
    }
}
