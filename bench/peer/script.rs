//! Script lines read.

use crate::bodies::Body;
use crate::labels::PLACES;

const FIELD_WIDTH: usize = 9;

/// The longest line, with its line end: a letter and sixteen masks.
pub const LONGEST_LINE: usize = 1 + PLACES * FIELD_WIDTH + 1;

pub enum Command {
    Size(usize),
    Post { station: usize, body: Body },
    Round([u16; PLACES]),
}

/// The command on a line with its line end, or nothing where the line is malformed; n is the group's size, once it is known.
pub fn read_line(line: &[u8], n: Option<usize>) -> Option<Command> {
    let (letter, fields) = line.strip_suffix(b"\n")?.split_first()?;
    let (fields, rest) = fields.as_chunks();
    if !rest.is_empty() {
        return None;
    }
    match (letter, n) {
        (b'N', None) => read_size(fields),
        (b'P', Some(_)) => read_post(fields),
        (b'R', Some(n)) => read_round(fields, n),
        _ => None,
    }
}

fn read_size(fields: &[[u8; FIELD_WIDTH]]) -> Option<Command> {
    let [size] = fields else { return None };
    let size = natural(size)? as usize;
    (1..=PLACES).contains(&size).then_some(Command::Size(size))
}

fn read_post(fields: &[[u8; FIELD_WIDTH]]) -> Option<Command> {
    let [station, kind, event, argument] = fields else { return None };
    let (station, kind, event, argument) = (natural(station)?, natural(kind)?, natural(event)?, integer(argument)?);
    Some(Command::Post { station: station as usize, body: Body::of_numbers(kind, event, argument) })
}

fn read_round(fields: &[[u8; FIELD_WIDTH]], n: usize) -> Option<Command> {
    if fields.len() != n {
        return None;
    }
    let mut masks = [0; PLACES];
    for (mask, field) in masks.iter_mut().zip(fields) {
        *mask = natural(field)?.try_into().ok()?;
    }
    Some(Command::Round(masks))
}

/// A right-justified number without a sign.
fn natural(field: &[u8; FIELD_WIDTH]) -> Option<u32> {
    digits(without_spaces(field))
}

/// A right-justified number; a minus may stand before it, but not before zero.
fn integer(field: &[u8; FIELD_WIDTH]) -> Option<i32> {
    match without_spaces(field) {
        [b'-', b'0', ..] => None,
        [b'-', rest @ ..] => digits(rest).map(|number| -(number as i32)),
        rest => digits(rest).map(|number| number as i32),
    }
}

fn without_spaces(field: &[u8; FIELD_WIDTH]) -> &[u8] {
    let spaces = field.iter().take_while(|&&byte| byte == b' ').count();
    &field[spaces..]
}

/// One to nine digits without leading zeros.
fn digits(text: &[u8]) -> Option<u32> {
    if text.is_empty() || text[0] == b'0' && text.len() > 1 {
        return None;
    }
    let mut number = 0;
    for &byte in text {
        let digit = byte.wrapping_sub(b'0');
        if digit > 9 {
            return None;
        }
        number = number * 10 + u32::from(digit);
    }
    Some(number)
}
