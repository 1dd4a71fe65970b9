//! Just enough JSON to put data into a page.

use std::fmt::Display;

/// A text in quotes. A `<` is written as its number, so that no text can end the script that it stands in.
pub fn string(text: &str) -> String {
    let mut quoted = String::from("\"");
    for sign in text.chars() {
        match sign {
            '"' | '\\' => quoted.extend(['\\', sign]),
            '<' | '\0'..='\x1f' => quoted += &format!("\\u{:04x}", sign as u32),
            _ => quoted.push(sign),
        }
    }
    quoted + "\""
}

/// A list of values.
pub fn list<T: Display>(values: impl IntoIterator<Item = T>) -> String {
    let values: Vec<String> = values.into_iter().map(|value| value.to_string()).collect();
    format!("[{}]", values.join(","))
}

/// An object of names and values.
pub fn object<'a>(fields: impl IntoIterator<Item = (&'a str, String)>) -> String {
    let fields: Vec<String> = fields
        .into_iter()
        .map(|(name, value)| format!("{}:{value}", string(name)))
        .collect();
    format!("{{{}}}", fields.join(","))
}

#[cfg(test)]
mod tests {
    use super::{list, object, string};

    #[test]
    fn nothing_ends_the_script() {
        assert_eq!(string("</script>\"\\\n"), r#""\u003c/script>\"\\\u000a""#);
    }

    #[test]
    fn values_are_parted_by_commas() {
        let fields = [("a", list([1, 2])), ("b", "null".to_string())];
        assert_eq!(object(fields), r#"{"a":[1,2],"b":null}"#);
    }
}
