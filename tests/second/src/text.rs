//! Bytes and buffers as text.

use crate::refusal::Refusal;

/// The bytes of a text: hex bytes of two digits, each with `*` and a count if there
/// are more, with spaces between.
pub fn bytes_of_words(text: &str) -> Result<Vec<u8>, String> {
    let mut bytes = Vec::new();
    for word in text.split_whitespace() {
        let (byte, count) = word.split_once('*').unwrap_or((word, "1"));
        let digits = byte.len() == 2 && byte.bytes().all(|c| c.is_ascii_hexdigit());
        match (u8::from_str_radix(byte, 16), count.parse::<usize>()) {
            (Ok(byte), Ok(count)) if digits => bytes.extend(vec![byte; count]),
            _ => return Err(format!("{word:?} is not a byte of two hex digits")),
        }
    }
    Ok(bytes)
}

/// The bytes of a text that is written in a program.
pub fn bytes(text: &str) -> Vec<u8> {
    bytes_of_words(text).expect("hex bytes")
}

/// The one byte of a text.
pub fn byte_of_words(text: &str) -> Result<u8, String> {
    match bytes_of_words(text)?[..] {
        [byte] => Ok(byte),
        _ => Err(format!("{text:?} is not one byte")),
    }
}

/// Bytes as such a text. Five or more that are the same stand as one word.
pub fn words_of_bytes(bytes: &[u8]) -> String {
    let mut words = Vec::new();
    for same in bytes.chunk_by(|first, second| first == second) {
        let word = format!("{:02x}", same[0]);
        if same.len() < 5 {
            words.extend(vec![word; same.len()]);
        } else {
            words.push(format!("{word}*{}", same.len()));
        }
    }
    words.join(" ")
}

/// What was done, or the refusal, and every byte of the buffer after it, two hex
/// digits each.
pub fn words_of_buffer(done: Result<String, Refusal>, buffer: &[u8]) -> String {
    let done = done.unwrap_or_else(|refusal| refusal.to_string());
    let digits: String = buffer.iter().map(|byte| format!("{byte:02x}")).collect();
    format!("{done} [{digits}]")
}

/// The text of a program, each of whose lines ends, as one line: ` / ` stands between
/// its lines.
pub fn line_of_text(text: &str) -> String {
    match text.strip_suffix('\n') {
        Some(lines) => lines.replace('\n', " / "),
        None => format!("{text:?} does not end its last line"),
    }
}

#[cfg(test)]
mod tests {
    use super::*;

    #[test]
    fn bytes_as_words_and_back() {
        for (text, bytes) in [
            ("", vec![]),
            ("12 00", vec![0x12, 0]),
            ("ff 0a ff", vec![0xff, 0x0a, 0xff]),
            ("01 01 01 01", vec![1; 4]),
            ("10 20*64", [&[0x10][..], &[0x20; 64]].concat()),
        ] {
            assert_eq!(bytes_of_words(text), Ok(bytes.clone()));
            assert_eq!(words_of_bytes(&bytes), text);
        }
        assert_eq!(bytes_of_words(" ff  0A "), Ok(vec![0xff, 0x0a]));
        assert_eq!(bytes_of_words("03*3 04*0"), Ok(vec![3; 3]));
        for text in [
            "1", "100", "+1", "1g", "10,11", "é", "01*", "01*x", "*3", "01*-1",
        ] {
            assert!(bytes_of_words(text).is_err(), "{text}");
        }
    }

    #[test]
    fn one_byte_and_no_more() {
        assert_eq!(byte_of_words(" 0f "), Ok(0x0f));
        for text in ["", "00 00", "1", "00*2"] {
            assert!(byte_of_words(text).is_err(), "{text}");
        }
    }

    #[test]
    fn a_text_as_one_line() {
        assert_eq!(line_of_text("one\n"), "one");
        assert_eq!(line_of_text("one\ntwo \n3\n"), "one / two  / 3");
        assert_eq!(line_of_text("\n"), "");
        for text in ["", "one", "one\ntwo"] {
            assert!(line_of_text(text).ends_with("does not end its last line"));
        }
    }

    #[test]
    fn buffers_behind_answers() {
        let refusal = Refusal {
            number: 16,
            place: 0,
        };
        let done = Ok("done".to_string());
        assert_eq!(words_of_buffer(done, &[1, 0xff]), "done [01ff]");
        assert_eq!(words_of_buffer(Err(refusal), &[]), "refused 16 0 []");
    }
}
