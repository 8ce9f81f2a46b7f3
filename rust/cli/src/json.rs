//! Texts and lists in JSON.

/// A text in quotation marks. '<' is escaped too, so that no text ends a script of a page.
pub fn text(value: &str) -> String {
    let mut quoted = String::from("\"");
    for letter in value.chars() {
        match letter {
            '"' => quoted += "\\\"",
            '\\' => quoted += "\\\\",
            '<' => quoted += "\\u003c",
            control if control < ' ' => quoted += &format!("\\u{:04x}", control as u32),
            other => quoted.push(other),
        }
    }
    quoted + "\""
}

pub fn list(values: impl Iterator<Item = String>) -> String {
    format!("[{}]", values.collect::<Vec<_>>().join(","))
}

/// Names with values that are JSON already.
pub fn object<'a>(fields: impl IntoIterator<Item = (&'a str, String)>) -> String {
    let fields: Vec<String> = fields.into_iter().map(|(name, value)| format!("{}:{value}", text(name))).collect();
    format!("{{{}}}", fields.join(","))
}

#[cfg(test)]
mod tests {
    use super::*;

    #[test]
    fn texts_are_escaped() {
        assert_eq!(text("a\"b\\c\nd</script>é"), "\"a\\\"b\\\\c\\u000ad\\u003c/script>é\"");
    }

    #[test]
    fn lists_and_objects() {
        assert_eq!(list(std::iter::empty()), "[]");
        assert_eq!(list([1, 2].iter().map(i32::to_string)), "[1,2]");
        assert_eq!(object([("a", list(std::iter::empty())), ("b", text("c"))]), "{\"a\":[],\"b\":\"c\"}");
    }
}
