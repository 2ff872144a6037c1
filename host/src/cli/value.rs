//! What is shown of a frame or command, as a tree that is written on one line, in full, or as JSON.
use std::io::{self, Write};

pub type Fields = Vec<(&'static str, Value)>;

#[derive(Debug, Clone, PartialEq)]
pub enum Value {
    Text(String),
    Number(u64),
    Signed(i64),
    /// A share of 1.
    Rate(f64),
    Flag(bool),
    List(Vec<Value>),
    Object(Fields),
}

impl Value {
    pub fn text(text: impl ToString) -> Self {
        Self::Text(text.to_string())
    }

    /// Bytes as hexadecimal digits.
    pub fn bytes(bytes: &[u8]) -> Self {
        Self::Text(digits(bytes))
    }

    pub fn list<'a, T>(entries: &'a [T], show: impl Fn(&'a T) -> Self) -> Self {
        Self::List(entries.iter().map(show).collect())
    }

    /// Whether it is a flag that is off, which a line leaves out.
    pub fn is_off(&self) -> bool {
        matches!(self, Self::Flag(false))
    }

    /// Writes the value on a line.
    fn write(&self, out: &mut impl Write) -> io::Result<()> {
        match self {
            Self::Text(text) => out.write_all(text.as_bytes()),
            Self::Number(number) => write!(out, "{number}"),
            Self::Signed(number) => write!(out, "{number}"),
            Self::Rate(rate) => write!(out, "{rate:.4}"),
            Self::Flag(flag) => out.write_all(if *flag { b"yes" } else { b"no" }),
            Self::List(entries) => {
                out.write_all(b"[")?;
                write_joined(entries, ", ", out, Self::write)?;
                out.write_all(b"]")
            }
            Self::Object(fields) => write_line(fields, " ", out),
        }
    }

    /// Writes the value as JSON.
    fn write_json(&self, out: &mut impl Write) -> io::Result<()> {
        match self {
            Self::Text(text) => write_quoted(text, out),
            Self::Number(number) => write!(out, "{number}"),
            Self::Signed(number) => write!(out, "{number}"),
            Self::Rate(rate) => write!(out, "{rate:.4}"),
            Self::Flag(flag) => out.write_all(if *flag { b"true" } else { b"false" }),
            Self::List(entries) => {
                out.write_all(b"[")?;
                write_joined(entries, ",", out, Self::write_json)?;
                out.write_all(b"]")
            }
            Self::Object(fields) => write_object(fields, out),
        }
    }
}

impl From<u8> for Value {
    fn from(number: u8) -> Self {
        Self::Number(number.into())
    }
}

impl From<u32> for Value {
    fn from(number: u32) -> Self {
        Self::Number(number.into())
    }
}

impl From<i8> for Value {
    fn from(number: i8) -> Self {
        Self::Signed(number.into())
    }
}

impl From<bool> for Value {
    fn from(flag: bool) -> Self {
        Self::Flag(flag)
    }
}

/// Writes fields on one line, with this between them: a field is its name and its value, a flag is its name alone or nothing.
pub fn write_line(fields: &Fields, between: &str, out: &mut impl Write) -> io::Result<()> {
    let shown = fields.iter().filter(|(_, value)| !value.is_off());
    write_joined(shown, between, out, |(name, value), out| {
        write_name(name, out)?;
        if *value == Value::Flag(true) {
            return Ok(());
        }
        out.write_all(b" ")?;
        value.write(out)
    })
}

/// Writes fields one below the other, those of an inner object further in.
pub fn write_full(fields: &Fields, indent: usize, out: &mut impl Write) -> io::Result<()> {
    for (name, value) in fields {
        write!(out, "{:indent$}", "")?;
        write_name(name, out)?;
        if let Value::Object(inner) = value {
            out.write_all(b"\n")?;
            write_full(inner, indent + 2, out)?;
        } else {
            out.write_all(b": ")?;
            value.write(out)?;
            out.write_all(b"\n")?;
        }
    }
    Ok(())
}

/// Writes an object of these fields as JSON, on a line of its own.
pub fn write_json_line(fields: &Fields, out: &mut impl Write) -> io::Result<()> {
    write_object(fields, out)?;
    out.write_all(b"\n")
}

/// Writes an object as JSON. The names of fields have no character to escape.
fn write_object(fields: &Fields, out: &mut impl Write) -> io::Result<()> {
    out.write_all(b"{")?;
    write_joined(fields, ",", out, |(name, value), out| {
        out.write_all(b"\"")?;
        out.write_all(name.as_bytes())?;
        out.write_all(b"\":")?;
        value.write_json(out)
    })?;
    out.write_all(b"}")
}

/// Writes a field's name with blanks.
fn write_name(name: &str, out: &mut impl Write) -> io::Result<()> {
    write_joined(name.split('_'), " ", out, |word, out| out.write_all(word.as_bytes()))
}

/// Writes each of some parts, with this between them.
fn write_joined<T, W: Write>(
    parts: impl IntoIterator<Item = T>,
    between: &str,
    out: &mut W,
    write: impl Fn(T, &mut W) -> io::Result<()>,
) -> io::Result<()> {
    for (at, part) in parts.into_iter().enumerate() {
        if at > 0 {
            out.write_all(between.as_bytes())?;
        }
        write(part, out)?;
    }
    Ok(())
}

pub fn digits(bytes: &[u8]) -> String {
    let digit = |number: u8| char::from(b"0123456789ABCDEF"[usize::from(number & 0xF)]);
    let mut digits = String::with_capacity(2 * bytes.len());
    for byte in bytes {
        digits.push(digit(byte >> 4));
        digits.push(digit(*byte));
    }
    digits
}

/// Writes a text as JSON has it. One without a character to escape, as nearly all are, is written at once.
fn write_quoted(text: &str, out: &mut impl Write) -> io::Result<()> {
    out.write_all(b"\"")?;
    match text.bytes().any(|byte| byte < 0x20 || matches!(byte, b'"' | b'\\')) {
        false => out.write_all(text.as_bytes())?,
        true => text.chars().try_for_each(|character| write_escaped(character, out))?,
    }
    out.write_all(b"\"")
}

fn write_escaped(character: char, out: &mut impl Write) -> io::Result<()> {
    match character {
        '"' | '\\' => write!(out, "\\{character}"),
        c if u32::from(c) < 0x20 => write!(out, "\\u{:04x}", u32::from(c)),
        c => write!(out, "{c}"),
    }
}

#[cfg(test)]
mod tests {
    use super::*;

    /// What is written.
    fn written(write: impl Fn(&mut Vec<u8>) -> io::Result<()>) -> String {
        let mut out = Vec::new();
        write(&mut out).expect("a vector takes everything");
        String::from_utf8(out).expect("UTF-8")
    }

    #[test]
    fn a_tree_in_three_ways() {
        let fields: Fields = vec![
            ("first_frame", Value::Flag(true)),
            ("last_frame", Value::Flag(false)),
            ("links", Value::List(vec![Value::Object(vec![("cost", Value::Number(3))])])),
            ("inner", Value::Object(vec![("name", Value::text("a \"b\"\n"))])),
        ];
        let front = fields[..3].to_vec();
        assert_eq!(written(|out| write_line(&front, ", ", out)), "first frame, links [cost 3]");
        let full = "  first frame: yes\n  last frame: no\n  links: [cost 3]\n";
        assert_eq!(written(|out| write_full(&front, 2, out)), full);
        let json = r#"{"first_frame":true,"last_frame":false,"links":[{"cost":3}],"inner":{"name":"a \"b\"\u000a"}}"#;
        assert_eq!(written(|out| write_json_line(&fields, out)), format!("{json}\n"));
    }

    /// RFC 8259, 7: quotation mark, reverse solidus and the characters below U+0020 are escaped, and no others.
    #[test]
    fn texts_as_json() {
        for (text, json) in [
            ("", r#""""#),
            ("0x1A62", r#""0x1A62""#),
            ("C:\\store \"7\"", r#""C:\\store \"7\"""#),
            ("\t\u{1f} \u{7f}", "\"\\u0009\\u001f \u{7f}\""),
            ("Körner\n", "\"Körner\\u000a\""),
        ] {
            assert_eq!(written(|out| write_quoted(text, out)), json);
        }
    }

    /// What stands between entries, numbers of each kind, and lists and objects of nothing.
    #[test]
    fn values_on_a_line_and_as_json() {
        for (value, line, json) in [
            (Value::Number(u64::MAX), "18446744073709551615", "18446744073709551615"),
            (Value::Signed(-10), "-10", "-10"),
            (Value::Rate(2.0 / 3.0), "0.6667", "0.6667"),
            (Value::Flag(false), "no", "false"),
            (Value::bytes(&[0x08, 0xAF]), "08AF", r#""08AF""#),
            (Value::List(Vec::new()), "[]", "[]"),
            (Value::List(vec![1u8.into(), Value::text("two"), true.into()]), "[1, two, yes]", r#"[1,"two",true]"#),
            (Value::Object(Vec::new()), "", "{}"),
            (Value::Object(vec![("a_b", 1u8.into()), ("c", 2u8.into())]), "a b 1 c 2", r#"{"a_b":1,"c":2}"#),
        ] {
            assert_eq!(
                (written(|out| value.write(out)), written(|out| value.write_json(out))),
                (line.into(), json.into())
            );
        }
    }
}
