//! Objects of JSON, one a line.

use std::ffi::OsStr;
use std::fmt::{Display, Write};
use std::os::unix::ffi::OsStrExt;

/// An object, field by field.
#[derive(Debug, Default)]
pub struct Object(Vec<String>);

impl Object {
    /// A field of text.
    pub fn text(mut self, key: &str, value: &str) -> Object {
        self.0.push(format!("{}: {}", string(key), string(value)));
        self
    }

    /// A number, a truth value, or what else is written as it is shown.
    pub fn plain(mut self, key: &str, value: impl Display) -> Object {
        self.0.push(format!("{}: {value}", string(key)));
        self
    }

    /// A list of numbers.
    pub fn numbers(self, key: &str, values: impl IntoIterator<Item = usize>) -> Object {
        let values: Vec<String> = values.into_iter().map(|value| value.to_string()).collect();
        self.plain(key, format!("[{}]", values.join(", ")))
    }

    /// A list of texts.
    pub fn texts(self, key: &str, values: impl IntoIterator<Item = String>) -> Object {
        let values: Vec<String> = values.into_iter().map(|value| string(&value)).collect();
        self.plain(key, format!("[{}]", values.join(", ")))
    }

    /// An object.
    pub fn object(self, key: &str, value: Object) -> Object {
        self.plain(key, value.shown())
    }

    /// A list of objects.
    pub fn objects(self, key: &str, values: impl IntoIterator<Item = Object>) -> Object {
        let values: Vec<String> = values.into_iter().map(|value| value.shown()).collect();
        self.plain(key, format!("[{}]", values.join(", ")))
    }

    /// The name of a file, and its bytes as hexadecimal digits too where it is no UTF-8.
    pub fn name(self, key: &str, name: &OsStr) -> Object {
        let object = self.text(key, &name.to_string_lossy());
        match name.to_str() {
            Some(_) => object,
            None => {
                let digits: Vec<String> = name
                    .as_bytes()
                    .iter()
                    .map(|byte| format!("{byte:02x}"))
                    .collect();
                object.text(&format!("{key}_hex"), &digits.concat())
            }
        }
    }

    /// As it stands in a line.
    pub fn shown(&self) -> String {
        format!("{{{}}}", self.0.join(", "))
    }

    /// The line.
    pub fn line(&self) -> String {
        format!("{}\n", self.shown())
    }
}

fn string(text: &str) -> String {
    let mut out = String::from('"');
    for c in text.chars() {
        match c {
            '"' | '\\' => out.extend(['\\', c]),
            c if c.is_ascii() && !c.is_ascii_control() => out.push(c),
            c => {
                let mut units = [0; 2];
                for unit in c.encode_utf16(&mut units) {
                    let _ = write!(out, "\\u{unit:04x}");
                }
            }
        }
    }
    out.push('"');
    out
}
