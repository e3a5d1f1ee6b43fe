//! JSON (RFC 8259), written: each function gives a value as text on one line.

use crate::files::Input;

/// A string in quotes, with everything escaped that has to be.
pub fn string(text: &str) -> String {
    let mut quoted = String::from('"');
    for character in text.chars() {
        match character {
            '"' => quoted += "\\\"",
            '\\' => quoted += "\\\\",
            '\n' => quoted += "\\n",
            '\r' => quoted += "\\r",
            '\t' => quoted += "\\t",
            control if control < ' ' => quoted += &format!("\\u{:04x}", control as u32),
            other => quoted.push(other),
        }
    }
    quoted + "\""
}

/// An object of these members; the values are JSON already.
pub fn object(members: &[(&str, String)]) -> String {
    let member = |(name, value): &(&str, String)| format!("{}:{value}", string(name));
    format!("{{{}}}", members.iter().map(member).collect::<Vec<_>>().join(","))
}

/// An array of these values, which are JSON already.
pub fn array(values: impl Iterator<Item = String>) -> String {
    format!("[{}]", values.collect::<Vec<_>>().join(","))
}

/// An object of the files' names, each under what it was read as.
pub fn files<const N: usize>(roles: [&'static str; N], files: &[Input; N]) -> String {
    let named =
        |(role, file): (&'static str, &Input)| (role, string(&file.path().to_string_lossy()));
    object(&roles.into_iter().zip(files).map(named).collect::<Vec<_>>())
}

#[cfg(test)]
mod tests {
    use super::*;

    #[test]
    fn values() {
        assert_eq!(
            string("a\"b\\c\n\r\t\u{1}\u{1f} é\u{7f}"),
            "\"a\\\"b\\\\c\\n\\r\\t\\u0001\\u001f é\u{7f}\""
        );
        assert_eq!(object(&[]), "{}");
        let list = array(["1".to_string(), string("x")].into_iter());
        assert_eq!(object(&[("a", list), ("b\"", "null".into())]), r#"{"a":[1,"x"],"b\"":null}"#);
    }
}
