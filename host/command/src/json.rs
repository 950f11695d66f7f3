//! Writing JSON: objects on one line, with strings and numbers.
//!
//! Addresses are written as strings of hexadecimal digits, because many readers of JSON keep only 53 bits of a number.

use std::fmt::Write;

/// An object that is being written.
pub struct Object(String);

impl Object {
    pub fn new() -> Self {
        Object(String::from("{"))
    }

    fn name(&mut self, name: &str) {
        let comma = if self.0.len() > 1 { "," } else { "" };
        let _ = write!(self.0, "{comma}{}:", quoted(name));
    }

    pub fn text(self, name: &str, value: &str) -> Self {
        self.json(name, &quoted(value))
    }

    pub fn number(self, name: &str, value: u64) -> Self {
        self.json(name, &value.to_string())
    }

    pub fn address(self, name: &str, value: u64) -> Self {
        self.text(name, &format!("{value:#x}"))
    }

    pub fn truth(self, name: &str, value: bool) -> Self {
        self.json(name, if value { "true" } else { "false" })
    }

    /// A value that is JSON already.
    pub fn json(mut self, name: &str, value: &str) -> Self {
        self.name(name);
        self.0.push_str(value);
        self
    }

    /// A list of values that are JSON already.
    pub fn list(self, name: &str, values: impl IntoIterator<Item = String>) -> Self {
        let values: Vec<String> = values.into_iter().collect();
        self.json(name, &format!("[{}]", values.join(",")))
    }

    pub fn end(mut self) -> String {
        self.0.push('}');
        self.0
    }
}

/// A string with quotes, as JSON has it.
pub fn quoted(text: &str) -> String {
    let mut out = String::from("\"");
    for letter in text.chars() {
        match letter {
            '"' | '\\' => out.extend(['\\', letter]),
            control if control < ' ' => {
                let _ = write!(out, "\\u{:04x}", control as u32);
            }
            plain => out.push(plain),
        }
    }
    out.push('"');
    out
}
