//! Stands in for the crate's values and its parser: one RESP2 value as docs/SPECIFICATION.md has it.
use std::str;

/// Nothing looks into simple strings and errors.
pub enum Value {
    Nil,
    Int(i64),
    BulkString(Vec<u8>),
    SimpleString,
    ServerError,
    Array(Vec<Value>),
}

const DEPTH: usize = 8;

/// The one value that the bytes stand for.
pub fn answer(mut bytes: &[u8]) -> Option<Value> {
    let value = value(&mut bytes, DEPTH)?;
    bytes.is_empty().then_some(value)
}

fn value(rest: &mut &[u8], depth: usize) -> Option<Value> {
    let kind = take(rest, 1)?[0];
    let head = line(rest)?;
    match kind {
        b'+' => Some(Value::SimpleString),
        b'-' => Some(Value::ServerError),
        b':' => str::from_utf8(head).ok()?.parse().ok().map(Value::Int),
        b'$' | b'*' if head == b"-1" => Some(Value::Nil),
        b'$' => {
            let text = take(rest, length(head)?)?;
            (take(rest, 2)? == b"\r\n").then(|| Value::BulkString(text.to_vec()))
        }
        b'*' => {
            let inner = depth.checked_sub(1)?;
            let items: Option<_> = (0..length(head)?).map(|_| value(rest, inner)).collect();
            items.map(Value::Array)
        }
        _ => None,
    }
}

fn take<'a>(rest: &mut &'a [u8], n: usize) -> Option<&'a [u8]> {
    let (front, back) = rest.split_at_checked(n)?;
    *rest = back;
    Some(front)
}

fn line<'a>(rest: &mut &'a [u8]) -> Option<&'a [u8]> {
    let end = rest.iter().position(|c| matches!(c, b'\r' | b'\n'))?;
    let text = take(rest, end)?;
    (take(rest, 2)? == b"\r\n").then_some(text)
}

fn length(head: &[u8]) -> Option<usize> {
    head.iter().all(u8::is_ascii_digit).then(|| str::from_utf8(head).ok()?.parse().ok())?
}
