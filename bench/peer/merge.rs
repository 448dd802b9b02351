//! The merge of two link logs: a hearing is there in a round if either log has it (document 02, A10).

use crate::forecast::check_log;
use crate::labels::PLACES;
use crate::refusals::{Refusal, require};

/// Puts the merged log into a buffer and gives its number of masks.
pub fn merge(first: &[u16], second: &[u16], n: usize, merged: &mut [u16]) -> Result<usize, Refusal> {
    check_log(first, n)?;
    check_log(second, n)?;
    let (shorter, longer) = if first.len() < second.len() { (first, second) } else { (second, first) };
    require(merged.len() >= longer.len(), Refusal::ShortBuffer)?;
    let all = u16::MAX >> (PLACES - n);
    let others: [u16; PLACES] = std::array::from_fn(|station| all & !(1 << station));
    let (both, rest) = longer.split_at(shorter.len());
    let (merged_both, merged_rest) = merged[..longer.len()].split_at_mut(shorter.len());
    let rounds = merged_both.chunks_exact_mut(n).zip(both.chunks_exact(n)).zip(shorter.chunks_exact(n));
    for ((merged, one), other) in rounds {
        for (((mask, one), other), others) in merged.iter_mut().zip(one).zip(other).zip(&others) {
            *mask = (one | other) & others;
        }
    }
    for (merged, one) in merged_rest.chunks_exact_mut(n).zip(rest.chunks_exact(n)) {
        for ((mask, one), others) in merged.iter_mut().zip(one).zip(&others) {
            *mask = one & others;
        }
    }
    Ok(longer.len())
}
