//! The forecast of a link log: how many broadcasts of each station end, and the round of the last end (document 02, A1).

use crate::labels::PLACES;
use crate::refusals::{Refusal, require};

const MOST_ROUNDS: usize = 2_048;

#[derive(Clone, Copy, Debug, Default, PartialEq, Eq)]
pub struct Forecast {
    pub ends: [u16; PLACES],
    pub last: [u16; PLACES],
}

/// Entry s of row p is the set of stations of which p knows that they have the present broadcast of s.
pub type Sets = [[u16; PLACES]; PLACES];

pub fn forecast(log: &[u16], n: usize) -> Result<Forecast, Refusal> {
    check_log(log, n)?;
    let all = u16::MAX >> (PLACES - n);
    let mut forecast = Forecast::default();
    let mut sets = [[0; PLACES]; PLACES];
    (0..n).for_each(|s| begin(&mut sets, s));
    for (masks, round) in log.chunks_exact(n).zip(1..) {
        let before = sets;
        for (p, &mask) in masks.iter().enumerate() {
            sets[p] = learnt(&before, mask & all, p);
        }
        for s in 0..n {
            if sets[s][s] & all == all {
                forecast.ends[s] += 1;
                forecast.last[s] = round;
                begin(&mut sets, s);
            }
        }
    }
    Ok(forecast)
}

/// Refuses a number of stations, or a log that is not whole rounds or has too many.
pub fn check_log(log: &[u16], n: usize) -> Result<(), Refusal> {
    require((1..=PLACES).contains(&n), Refusal::BadNumber)?;
    require(log.len() % n == 0 && log.len() / n <= MOST_ROUNDS, Refusal::BadLinkLog)
}

/// The row of p after a round with this mask.
pub fn learnt(before: &Sets, mask: u16, p: usize) -> [u16; PLACES] {
    let mut row = before[p];
    let mut rest = mask;
    while rest != 0 {
        for (set, heard) in row.iter_mut().zip(&before[rest.trailing_zeros() as usize]) {
            *set |= heard;
        }
        rest &= rest - 1;
    }
    for (s, set) in row.iter_mut().enumerate() {
        *set |= (*set >> s & 1) << p;
    }
    row
}

/// A broadcast of s begins: s alone has it, and s alone knows.
pub fn begin(sets: &mut Sets, s: usize) {
    for row in sets.iter_mut() {
        row[s] = 0;
    }
    sets[s][s] = 1 << s;
}
