//! Values that are read by a table of types which the program has when it runs, and written again.
use super::records::{put_number, take, take_number};
use crate::calls::Found;

/// A type; those inside are given by their places in the table.
#[allow(dead_code)]
enum Node {
    Bool,
    U8,
    U16,
    U32,
    U64,
    Text,
    Option(usize),
    List(usize),
    Struct(Vec<usize>),
    Enum(Vec<usize>),
}

/// A value of a type of a table.
enum Value {
    Bool(bool),
    U8(u8),
    U16(u16),
    U32(u32),
    U64(u64),
    Text(String),
    Absent,
    Present(Box<Value>),
    List(Vec<Value>),
    Group(Vec<Value>),
    Variant(u32, Box<Value>),
}

const DEPTH: u32 = 8;

/// The table of the record's type, and its place.
fn table() -> (Vec<Node>, usize) {
    let mut nodes = Vec::new();
    let mut add = |node| {
        nodes.push(node);
        nodes.len() - 1
    };
    let number = add(Node::U32);
    let big = add(Node::U64);
    let text = add(Node::Text);
    let short = add(Node::U16);
    let perhaps = add(Node::Option(short));
    let element = add(Node::U16);
    let list = add(Node::List(element));
    let place = add(Node::Struct(vec![number, big, text, perhaps, list]));
    (nodes, place)
}

fn read_all(rest: &mut &[u8], nodes: &[Node], places: &[usize], depth: u32) -> Option<Vec<Value>> {
    let mut values = Vec::with_capacity(places.len());
    for &place in places {
        values.push(read(rest, nodes, place, depth)?);
    }
    Some(values)
}

fn read_list(rest: &mut &[u8], nodes: &[Node], place: usize, depth: u32) -> Option<Vec<Value>> {
    let count = take_number(rest, 64)? as usize;
    let mut values = Vec::with_capacity(count.min(rest.len()));
    for _ in 0..count {
        values.push(read(rest, nodes, place, depth)?);
    }
    Some(values)
}

/// The value in front of the rest, of the type at a place.
fn read(rest: &mut &[u8], nodes: &[Node], place: usize, depth: u32) -> Option<Value> {
    let depth = depth.checked_sub(1)?;
    Some(match nodes.get(place)? {
        Node::Bool => match take(rest, 1)?[0] {
            0 => Value::Bool(false),
            1 => Value::Bool(true),
            _ => return None,
        },
        Node::U8 => Value::U8(take(rest, 1)?[0]),
        Node::U16 => Value::U16(take_number(rest, 16)? as u16),
        Node::U32 => Value::U32(take_number(rest, 32)? as u32),
        Node::U64 => Value::U64(take_number(rest, 64)?),
        Node::Text => {
            let len = take_number(rest, 64)? as usize;
            Value::Text(std::str::from_utf8(take(rest, len)?).ok()?.to_owned())
        }
        Node::Option(inner) => match take(rest, 1)?[0] {
            0 => Value::Absent,
            1 => Value::Present(Box::new(read(rest, nodes, *inner, depth)?)),
            _ => return None,
        },
        Node::List(inner) => Value::List(read_list(rest, nodes, *inner, depth)?),
        Node::Struct(fields) => Value::Group(read_all(rest, nodes, fields, depth)?),
        Node::Enum(variants) => {
            let index = take_number(rest, 32)? as u32;
            let inner = *variants.get(index as usize)?;
            Value::Variant(index, Box::new(read(rest, nodes, inner, depth)?))
        }
    })
}

fn write_all(values: &[Value], room: &mut [u8], at: &mut usize) -> Option<()> {
    values.iter().try_for_each(|value| write(value, room, at))
}

/// Writes a value behind what is written.
fn write(value: &Value, room: &mut [u8], at: &mut usize) -> Option<()> {
    match value {
        Value::Bool(bit) => put_number(room, at, (*bit).into()),
        Value::U8(byte) => {
            *room.get_mut(*at)? = *byte;
            *at += 1;
            Some(())
        }
        Value::U16(n) => put_number(room, at, (*n).into()),
        Value::U32(n) => put_number(room, at, (*n).into()),
        Value::U64(n) => put_number(room, at, *n),
        Value::Text(text) => {
            put_number(room, at, text.len() as u64)?;
            room.get_mut(*at..*at + text.len())?.copy_from_slice(text.as_bytes());
            *at += text.len();
            Some(())
        }
        Value::Absent => put_number(room, at, 0),
        Value::Present(inner) => {
            put_number(room, at, 1)?;
            write(inner, room, at)
        }
        Value::List(elements) => {
            put_number(room, at, elements.len() as u64)?;
            write_all(elements, room, at)
        }
        Value::Group(fields) => write_all(fields, room, at),
        Value::Variant(index, inner) => {
            put_number(room, at, (*index).into())?;
            write(inner, room, at)
        }
    }
}

fn sum_of(value: &Value) -> u64 {
    match value {
        Value::U16(n) => (*n).into(),
        Value::U32(n) => (*n).into(),
        Value::U64(n) => *n,
        Value::Text(text) => text.len() as u64,
        Value::Present(inner) => sum_of(inner),
        Value::List(values) | Value::Group(values) => values.iter().fold(0, |sum, v| sum.wrapping_add(sum_of(v))),
        _ => 0,
    }
}

/// How many nodes the table has.
pub fn count_nodes() -> usize {
    std::hint::black_box(table()).0.len()
}

/// Makes the table, and reads the record so many times.
pub fn read_times(source: &[u8], times: u32) -> Found {
    let (nodes, place) = std::hint::black_box(table());
    let mut found = Found::default();
    for _ in 0..times {
        let mut rest = source;
        match read(&mut rest, &nodes, place, DEPTH) {
            Some(value) => {
                found.values += 1;
                found.sum = found.sum.wrapping_add(sum_of(&value));
            }
            None => found.refused += 1,
        }
    }
    found
}

/// Reads the record once, and writes what was read so many times, and once more.
pub fn write_times(source: &[u8], times: u32, room: &mut [u8]) -> Option<usize> {
    let (nodes, place) = std::hint::black_box(table());
    let value = read(&mut &source[..], &nodes, place, DEPTH)?;
    let mut written = None;
    for _ in 0..=times {
        let mut at = 0;
        written = write(std::hint::black_box(&value), room, &mut at).map(|()| at);
    }
    written
}
