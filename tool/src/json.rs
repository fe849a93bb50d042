//! JSON, as much as is written here.

use std::fmt::Write;

/// A string with its quotes.
pub fn string(text: &str) -> String {
    let mut out = String::from("\"");
    for sign in text.chars() {
        match sign {
            '"' => out.push_str("\\\""),
            '\\' => out.push_str("\\\\"),
            '\n' => out.push_str("\\n"),
            sign if sign.is_control() => _ = write!(out, "\\u{:04x}", u32::from(sign)),
            sign => out.push(sign),
        }
    }
    out.push('"');
    out
}

/// An object of names and values that are JSON already.
pub fn object(members: &[(&str, String)]) -> String {
    let members: Vec<String> = members.iter().map(|(name, value)| format!("{}: {value}", string(name))).collect();
    format!("{{{}}}", members.join(", "))
}

/// A list of values that are JSON already, a line each.
pub fn lines(values: &[String]) -> String {
    if values.is_empty() {
        return "[]".into();
    }
    format!("[\n  {}\n]", values.join(",\n  "))
}

#[cfg(test)]
mod tests {
    use super::*;

    #[test]
    fn strings_are_escaped() {
        assert_eq!(string("a\"\\\n\u{1}ü"), "\"a\\\"\\\\\\n\\u0001ü\"");
        assert_eq!(object(&[("a", "1".into()), ("b", string("c"))]), "{\"a\": 1, \"b\": \"c\"}");
    }
}
