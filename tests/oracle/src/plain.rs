//! Plain JSON: no white space, the fewest escapes, members in their order.

use crate::value::{Number, Value};

/// The plain JSON of a value.
pub fn document(value: &Value) -> Vec<u8> {
    let mut out = Vec::new();
    write(value, &mut out);
    out
}

fn write(value: &Value, out: &mut Vec<u8>) {
    match value {
        Value::Null => out.extend_from_slice(b"null"),
        Value::Bool(true) => out.extend_from_slice(b"true"),
        Value::Bool(false) => out.extend_from_slice(b"false"),
        Value::Number(number) => out.extend_from_slice(spelled(number).as_bytes()),
        Value::Text(bytes) => text(bytes, out),
        Value::List(elements) => {
            out.push(b'[');
            for (index, element) in elements.iter().enumerate() {
                separate(index, out);
                write(element, out);
            }
            out.push(b']');
        }
        Value::Record(members) => {
            out.push(b'{');
            for (index, (name, member)) in members.iter().enumerate() {
                separate(index, out);
                text(name, out);
                out.push(b':');
                write(member, out);
            }
            out.push(b'}');
        }
    }
}

fn separate(index: usize, out: &mut Vec<u8>) {
    if index > 0 {
        out.push(b',');
    }
}

/// A number with as many fraction digits as its scale says.
pub fn spelled(number: &Number) -> String {
    let sign = if number.coefficient < 0 { "-" } else { "" };
    let width = number.scale + 1;
    let digits = format!("{:0width$}", number.coefficient.unsigned_abs());
    let (whole, fraction) = digits.split_at(digits.len() - number.scale);
    let point = if number.has_fraction() { "." } else { "" };
    format!("{sign}{whole}{point}{fraction}")
}

/// Writes a text or a name between quotes.
pub fn text(bytes: &[u8], out: &mut Vec<u8>) {
    out.push(b'"');
    for byte in bytes {
        match byte {
            b'"' | b'\\' => out.extend_from_slice(&[b'\\', *byte]),
            0x08 => out.extend_from_slice(b"\\b"),
            0x0c => out.extend_from_slice(b"\\f"),
            b'\n' => out.extend_from_slice(b"\\n"),
            b'\r' => out.extend_from_slice(b"\\r"),
            b'\t' => out.extend_from_slice(b"\\t"),
            0x00..=0x1f => out.extend_from_slice(format!("\\u{byte:04x}").as_bytes()),
            _ => out.push(*byte),
        }
    }
    out.push(b'"');
}
