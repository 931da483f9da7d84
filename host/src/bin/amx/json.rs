//! The little of JSON that is written here.

/// A string with its quotes. What HTML could take for a tag or an entity is escaped too, so that it may stand in a page.
pub fn string(text: &str) -> String {
    let mut json = String::from('"');
    for letter in text.chars() {
        match letter {
            '"' | '\\' => json.extend(['\\', letter]),
            '\0'..=' ' | '<' | '>' | '&' | '\u{7f}' | '\u{2028}' | '\u{2029}' if letter != ' ' => {
                json += &format!("\\u{:04x}", u32::from(letter));
            }
            _ => json.push(letter),
        }
    }
    json.push('"');
    json
}

#[cfg(test)]
mod tests {
    use super::*;

    #[test]
    fn what_would_end_a_string_or_a_script_is_escaped() {
        assert_eq!(string("a b"), "\"a b\"");
        assert_eq!(string("\"\\\n"), "\"\\\"\\\\\\u000a\"");
        assert_eq!(string("</script>&"), "\"\\u003c/script\\u003e\\u0026\"");
        assert_eq!(string("é\u{2028}"), "\"é\\u2028\"");
    }
}
