//! Writing JSON.

/// A text as a JSON string.
pub fn string(text: &str) -> String {
    let mut written = String::with_capacity(text.len() + 2);
    written.push('"');
    for c in text.chars() {
        match c {
            '"' => written.push_str("\\\""),
            '\\' => written.push_str("\\\\"),
            '\n' => written.push_str("\\n"),
            '\r' => written.push_str("\\r"),
            '\t' => written.push_str("\\t"),
            // JSON requires this of the controls below U+0020 only. The others would act on a terminal, too.
            c if c.is_control() => written.push_str(&format!("\\u{:04x}", u32::from(c))),
            c => written.push(c),
        }
    }
    written.push('"');
    written
}

/// An object; the values of its members are JSON.
pub fn object<'a>(members: impl IntoIterator<Item = (&'a str, String)>) -> String {
    let members: Vec<String> =
        members.into_iter().map(|(name, value)| format!("{}: {value}", string(name))).collect();
    format!("{{{}}}", members.join(", "))
}

/// An array; its items are JSON.
pub fn array(items: impl IntoIterator<Item = String>) -> String {
    let items: Vec<String> = items.into_iter().collect();
    format!("[{}]", items.join(", "))
}

#[cfg(test)]
mod tests {
    use super::*;

    #[test]
    fn strings_are_escaped() {
        assert_eq!(string(""), "\"\"");
        assert_eq!(string("/A{v=p}.b:c"), "\"/A{v=p}.b:c\"");
        assert_eq!(string("/Széll_Kálmán_tér{idő=fagy}Jelző_12"), "\"/Széll_Kálmán_tér{idő=fagy}Jelző_12\"");
        assert_eq!(string("\u{a0}\u{2028}e\u{301}"), "\"\u{a0}\u{2028}e\u{301}\"");
        assert_eq!(string("a\"b\\c\n\r\t"), "\"a\\\"b\\\\c\\n\\r\\t\"");
        assert_eq!(
            string("\u{0}\u{1b}\u{7f}\u{85}é→\u{1f68b}"),
            "\"\\u0000\\u001b\\u007f\\u0085é→\u{1f68b}\""
        );
    }

    #[test]
    fn objects_and_arrays() {
        assert_eq!(array([]), "[]");
        let member = [("a", array(["1".to_string(), "true".to_string()])), ("b\"", string("c"))];
        assert_eq!(object(member), "{\"a\": [1, true], \"b\\\"\": \"c\"}");
    }
}
