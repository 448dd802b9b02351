//! The load generator: the lines of a script drawn from a seed, call by call.

use crate::labels::PLACES;
use crate::refusals::{Refusal, require};

const FACTOR: u32 = 1_664_525;
const ADDEND: u32 = 1_013_904_223;
const POSTS_EVERY: u32 = 8;
const MOST_ROUNDS: u32 = 999_999;
const INSERT: u32 = 2;

const FIELD_WIDTH: usize = 9;
const SIZE_LINE: usize = line_size(1);
const POST_LINE: usize = line_size(4);

/// Room for what any call writes: sixteen posts and the masks of a round.
pub const ENOUGH: usize = PLACES * POST_LINE + line_size(PLACES);

/// A line of so many numbers: the letter, the fields and the line end.
const fn line_size(numbers: usize) -> usize {
    1 + numbers * FIELD_WIDTH + 1
}

/// What a call wrote, and the state for the next one.
#[derive(Clone, Copy)]
pub struct Generated {
    pub len: usize,
    pub state: u32,
}

/// Writes the `N` line where it is wanted, else the lines of the next round.
pub fn generate(out: &mut [u8], state: u32, n: usize, due: u32, head: bool) -> Result<Generated, Refusal> {
    require((1..=PLACES).contains(&n) && due <= MOST_ROUNDS, Refusal::BadNumber)?;
    if head {
        put_line(front(out, SIZE_LINE)?, b'N', [n as u32]);
        return Ok(Generated { len: SIZE_LINE, state });
    }
    if due == 0 {
        return Ok(Generated { len: 0, state });
    }
    let (mut posts, mut masks) = ([0; PLACES], [0; PLACES]);
    let (mut state, mut count) = (state, 0);
    for (post, mask) in posts.iter_mut().zip(&mut masks).take(n) {
        *post = draw(&mut state);
        count += usize::from(*post % POSTS_EVERY == 0);
        *mask = draw(&mut state);
    }
    let len = count * POST_LINE + line_size(n);
    let (lines, last) = front(out, len)?.split_at_mut(count * POST_LINE);
    let posting = posts.iter().take(n).enumerate().filter(|(_, draw)| **draw % POSTS_EVERY == 0);
    for (line, (station, &draw)) in lines.chunks_exact_mut(POST_LINE).zip(posting) {
        put_line(line, b'P', [station as u32, INSERT, draw + 1, draw]);
    }
    put_line(last, b'R', masks.into_iter().take(n));
    Ok(Generated { len, state })
}

fn draw(state: &mut u32) -> u32 {
    *state = state.wrapping_mul(FACTOR).wrapping_add(ADDEND);
    *state >> 16
}

fn front(out: &mut [u8], len: usize) -> Result<&mut [u8], Refusal> {
    out.get_mut(..len).ok_or(Refusal::ShortBuffer)
}

/// A line that fills the slice.
fn put_line(line: &mut [u8], letter: u8, numbers: impl IntoIterator<Item = u32>) {
    let end = line.len() - 1;
    line.fill(b' ');
    line[0] = letter;
    line[end] = b'\n';
    for (columns, number) in line[1..end].chunks_exact_mut(FIELD_WIDTH).zip(numbers) {
        put_number(columns, number);
    }
}

/// Right-justified in columns that are blank and wide enough.
fn put_number(columns: &mut [u8], mut number: u32) {
    for column in columns.iter_mut().rev() {
        *column = b'0' + (number % 10) as u8;
        number /= 10;
        if number == 0 {
            return;
        }
    }
}

/// The call from C: its refusal; next state and length where it is done.
pub fn call(state: u32, n: u32, due: u32, head: u32, out: &mut [u8], next: &mut [u32]) -> u32 {
    if next.len() < 2 {
        let inside = (1..=PLACES as u32).contains(&n) && due <= MOST_ROUNDS;
        return if inside { Refusal::ShortBuffer } else { Refusal::BadNumber } as u32;
    }
    match generate(out, state, n as usize, due, head != 0) {
        Ok(generated) => {
            next[..2].copy_from_slice(&[generated.state, generated.len as u32]);
            0
        }
        Err(refusal) => refusal as u32,
    }
}
