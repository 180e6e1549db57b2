//! Which bytes a text may hold: valid UTF-8 as Rust's own library judges it.

/// How long the longest beginning is that consists of characters.
pub fn valid_bytes(text: &[u8]) -> usize {
    match std::str::from_utf8(text) {
        Ok(_) => text.len(),
        Err(error) => error.valid_up_to(),
    }
}

/// The same of a window behind whose end the text goes on: a character that its end cuts belongs to it.
pub fn shown_bytes(window: &[u8]) -> usize {
    match std::str::from_utf8(window) {
        Err(error) if error.error_len().is_some() => error.valid_up_to(),
        _ => window.len(),
    }
}

#[cfg(test)]
mod tests {
    use super::*;

    #[test]
    fn a_broken_character_is_not_valid_from_its_start_on() {
        let texts: [(&[u8], usize); 11] = [
            (b"\"\xC3\xA9\"", 4),
            (b"\"\xC3\"", 1),
            (b"\xE1\x80a", 0),
            (b"a\xC3", 1),
            (b"\xC0\x80", 0),
            (b"\xE0\x80\x80", 0),
            (b"\xED\xA0\x80", 0),
            (b"\xF4\x90\x80\x80", 0),
            (b"\xF5", 0),
            (b"@\xFF", 1),
            (b"\xF4\x8F\xBF\xBF\x80", 4),
        ];
        for (text, valid) in texts {
            assert_eq!(valid_bytes(text), valid, "{}", text.escape_ascii());
        }
    }

    #[test]
    fn only_the_beginning_of_a_character_is_cut() {
        let windows: [(&[u8], usize); 7] = [
            (b"a\xC3", 2),
            (b"a\xE0\xA0", 3),
            (b"a\xE0\x80", 1),
            (b"\xF0\x9F\x98", 3),
            (b"\xF4\x90", 0),
            (b"\x80", 0),
            (b"\xC3a", 0),
        ];
        for (window, shown) in windows {
            assert_eq!(shown_bytes(window), shown, "{}", window.escape_ascii());
        }
    }
}
