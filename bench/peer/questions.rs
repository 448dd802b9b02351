//! A page of questions for one link log: by which round has a station received a broadcast (document 02, A11).

use crate::forecast::{Sets, begin, check_log, learnt};
use crate::labels::PLACES;
use crate::refusals::{Refusal, require};

const MOST_QUESTIONS: usize = 64;

/// What stands for never.
pub const NEVER: u32 = u32::MAX;

/// Puts an answer for each question, three numbers of the page, into a buffer, and gives their number.
pub fn answer(log: &[u16], n: usize, page: &[u32], answers: &mut [u32]) -> Result<usize, Refusal> {
    check_log(log, n)?;
    let (questions, rest) = page.as_chunks::<3>();
    let good = |&[sender, receiver, number]: &[u32; 3]| (sender as usize) < n && (receiver as usize) < n && number > 0;
    require(rest.is_empty() && questions.len() <= MOST_QUESTIONS && questions.iter().all(good), Refusal::BadQuestion)?;
    require(answers.len() >= questions.len(), Refusal::ShortBuffer)?;
    let answers = &mut answers[..questions.len()];
    answers.fill(NEVER);
    let all = u16::MAX >> (PLACES - n);
    let mut ends = [0u32; PLACES];
    let mut sets = [[0; PLACES]; PLACES];
    (0..n).for_each(|s| begin(&mut sets, s));
    settle(questions, answers, &sets, &ends, 0);
    for (masks, round) in log.chunks_exact(n).zip(1..) {
        let before = sets;
        for (p, &mask) in masks.iter().enumerate() {
            sets[p] = learnt(&before, mask & all, p);
        }
        for s in 0..n {
            if sets[s][s] & all == all {
                ends[s] += 1;
                begin(&mut sets, s);
            }
        }
        settle(questions, answers, &sets, &ends, round);
    }
    Ok(questions.len())
}

/// Answers what this round brings and no round before it did.
fn settle(questions: &[[u32; 3]], answers: &mut [u32], sets: &Sets, ends: &[u32; PLACES], round: u32) {
    for (&[sender, receiver, number], answer) in questions.iter().zip(answers) {
        let (s, r) = (sender as usize, receiver as usize);
        let received = ends[s] + u32::from(sets[r][s] >> s & 1);
        if *answer == NEVER && number <= received {
            *answer = round;
        }
    }
}
