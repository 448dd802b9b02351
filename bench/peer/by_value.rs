//! A group's post and round by value, which is the interface of the project's: sixteen stations in, sixteen stations and the reports out, and a refused call
//! gives back the group as it was. The work inside is the same as that of `Group`, which changes its stations in place.

use crate::bodies::Body;
use crate::group::{self, Frame, Report};
use crate::labels::PLACES;
use crate::refusals::Refusal;
use crate::station::Station;

/// What a post answers.
pub struct Kept {
    pub answer: Result<(), Refusal>,
    pub stations: [Station; PLACES],
}

/// What a round answers.
pub struct Done {
    pub answer: Result<(), Refusal>,
    pub stations: [Station; PLACES],
    pub reports: [Report; PLACES],
}

#[inline(never)]
pub fn post(stations: [Station; PLACES], place: usize, desk: usize, body: Body) -> Kept {
    let mut after = stations;
    let answer = group::post(&mut after, place, desk, body);
    Kept { answer, stations: after }
}

#[inline(never)]
pub fn round(stations: [Station; PLACES], masks: [u16; PLACES]) -> Done {
    let mut after = stations;
    let mut reports = [Report::NONE; PLACES];
    match rounded(&mut after, &masks, &mut reports) {
        Ok(()) => Done { answer: Ok(()), stations: after, reports },
        refused => Done { answer: refused, stations, reports: [Report::NONE; PLACES] },
    }
}

fn rounded(stations: &mut [Station; PLACES], masks: &[u16; PLACES], reports: &mut [Report; PLACES]) -> Result<(), Refusal> {
    group::judged(stations)?;
    let mut frames = [Frame::NONE; PLACES];
    group::hear_all(stations, &mut frames, masks, reports)?;
    group::turn_all(stations, reports);
    Ok(())
}
