//! The comparison of two air logs (document 02, A8).

use crate::labels::PLACES;
use crate::refusals::{Refusal, require};

const LINE: usize = 35;

/// A line of a listing with its line end.
type Line = [u8; LINE];

#[derive(Clone, Copy, Debug, PartialEq, Eq)]
pub enum Compared {
    Equal,
    FirstBegins,
    SecondBegins,
    Different(usize),
}

impl Compared {
    /// Which answer it is, and its position.
    pub fn numbers(self) -> [u64; 2] {
        match self {
            Compared::Equal => [0, 0],
            Compared::FirstBegins => [1, 0],
            Compared::SecondBegins => [2, 0],
            Compared::Different(position) => [3, position as u64],
        }
    }
}

/// The log of one station against that of another.
pub fn compare(first: &[u8], p: usize, second: &[u8], q: usize) -> Result<Compared, Refusal> {
    require(p < PLACES && q < PLACES, Refusal::BadNumber)?;
    let (first, second) = (lines(first)?, lines(second)?);
    let (mut first, mut second) = (log(first, p), log(second, q));
    for position in 1.. {
        match (first.next(), second.next()) {
            (None, None) => return Ok(Compared::Equal),
            (None, Some(_)) => return Ok(Compared::FirstBegins),
            (Some(_), None) => return Ok(Compared::SecondBegins),
            (Some(one), Some(two)) if one != two => return Ok(Compared::Different(position)),
            _ => {}
        }
    }
    unreachable!("a log has an end")
}

/// The lines of a listing, each of which has its form.
fn lines(listing: &[u8]) -> Result<&[Line], Refusal> {
    let body = listing.strip_suffix(b"END\n").ok_or(Refusal::BadListing)?;
    let (lines, rest) = body.as_chunks::<LINE>();
    require(rest.is_empty() && lines.iter().all(is_line), Refusal::BadListing)?;
    Ok(lines)
}

/// What a station aired: source, kind, event and argument, which as numbers in their columns are the same exactly if their bytes are.
fn log(lines: &[Line], station: usize) -> impl Iterator<Item = &[u8]> {
    let columns = format!("{station:3}").into_bytes();
    lines.iter().filter(move |line| line[7] == b'A' && line[8..11] == *columns).map(|line| &line[11..34])
}

fn is_line(line: &Line) -> bool {
    line[6] == b' '
        && matches!(line[7], b'A' | b'D' | b'E' | b'X')
        && line[34] == b'\n'
        && [&line[..6], &line[8..11], &line[11..14], &line[14..16], &line[16..25]].into_iter().all(is_natural)
        && is_whole(&line[25..34])
}

/// What stands behind the blanks.
fn unpadded(field: &[u8]) -> &[u8] {
    let blanks = field.iter().take_while(|&&byte| byte == b' ').count();
    &field[blanks..]
}

fn is_natural(field: &[u8]) -> bool {
    let text = unpadded(field);
    text == b"0" || is_positive(text)
}

fn is_whole(field: &[u8]) -> bool {
    let text = unpadded(field);
    text == b"0" || is_positive(text.strip_prefix(b"-").unwrap_or(text))
}

fn is_positive(text: &[u8]) -> bool {
    matches!(text, [b'1'..=b'9', rest @ ..] if rest.iter().all(u8::is_ascii_digit))
}
