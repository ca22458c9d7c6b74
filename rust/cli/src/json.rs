//! JSON, written.

use super::show;
use std::fmt::{Display, Write};

/// An object that is being written, its fields in the order in which they are given.
pub(crate) struct Object {
    text: String,
}

impl Object {
    pub(crate) fn new() -> Object {
        Object {
            text: String::from("{"),
        }
    }

    /// A field of JSON that is already written.
    pub(crate) fn raw(&mut self, name: &str, json: impl Display) -> &mut Object {
        if self.text.len() > 1 {
            self.text.push(',');
        }
        quote(name, &mut self.text);
        let _ = write!(self.text, ":{json}");
        self
    }

    /// A text.
    pub(crate) fn text(&mut self, name: &str, text: &str) -> &mut Object {
        self.raw(name, quoted(text))
    }

    /// A whole number.
    pub(crate) fn number(&mut self, name: &str, number: impl Into<i128>) -> &mut Object {
        self.raw(name, number.into())
    }

    /// Yes or no.
    pub(crate) fn bool(&mut self, name: &str, is: bool) -> &mut Object {
        self.raw(name, is)
    }

    /// An object.
    pub(crate) fn object(&mut self, name: &str, object: Object) -> &mut Object {
        self.raw(name, object.finish())
    }

    /// A list.
    pub(crate) fn list(
        &mut self,
        name: &str,
        items: impl IntoIterator<Item = String>,
    ) -> &mut Object {
        let items: Vec<String> = items.into_iter().collect();
        self.raw(name, format!("[{}]", items.join(",")))
    }

    /// The whole object.
    pub(crate) fn finish(&self) -> String {
        format!("{}}}", self.text)
    }
}

/// A float as JSON; null for what JSON has no number for.
pub(crate) fn float(number: f64) -> String {
    match number.is_finite() {
        true => show::float(number),
        false => String::from("null"),
    }
}

/// A text as JSON.
pub(crate) fn quoted(text: &str) -> String {
    let mut to = String::with_capacity(text.len().saturating_add(2));
    quote(text, &mut to);
    to
}

fn quote(text: &str, to: &mut String) {
    to.push('"');
    for c in text.chars() {
        match c {
            '"' => to.push_str("\\\""),
            '\\' => to.push_str("\\\\"),
            '\n' => to.push_str("\\n"),
            '\r' => to.push_str("\\r"),
            '\t' => to.push_str("\\t"),
            c if c.is_control() => {
                let _ = write!(to, "\\u{:04x}", u32::from(c));
            }
            c => to.push(c),
        }
    }
    to.push('"');
}

#[cfg(test)]
mod tests {
    use super::*;

    #[test]
    fn an_object() {
        let mut inner = Object::new();
        inner.bool("is", true);
        let mut object = Object::new();
        object
            .text("a\"", "b\\\n\u{1}\u{7f}é")
            .number("n", u64::MAX)
            .number("i", -1_i32);
        object.object("o", inner).list(
            "l",
            [quoted("x"), float(0.001), float(1e300), float(f64::NAN)],
        );
        assert_eq!(
            object.finish(),
            r#"{"a\"":"b\\\n\u0001\u007fé","n":18446744073709551615,"i":-1,"o":{"is":true},"l":["x",0.001,1e300,null]}"#
        );
        assert_eq!(Object::new().finish(), "{}");
    }
}
