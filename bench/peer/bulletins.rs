//! Bulletins beside a group (document 02, A12): four places an issuer, and for each station the set of those it holds.

use crate::group::{Group, Report};
use crate::labels::PLACES;
use crate::refusals::Refusal::{self, OutsideLimits};
use crate::refusals::require;

const OWN: usize = 4;
pub const ALL: usize = OWN * PLACES;

#[derive(Clone, Copy, Default)]
pub struct Notice {
    pub issuer: u32,
    pub tag: u32,
    pub event: u32,
}

/// What one station shows in a round; unused entries are zero.
#[derive(Clone, Copy)]
pub struct Shown {
    len: usize,
    notices: [Notice; ALL],
}

impl Shown {
    pub const NONE: Self = Self { len: 0, notices: [Notice { issuer: 0, tag: 0, event: 0 }; ALL] };

    pub fn len(&self) -> usize {
        self.len
    }

    pub fn is_empty(&self) -> bool {
        self.len == 0
    }

    pub fn entries(&self) -> &[Notice; ALL] {
        &self.notices
    }

    fn clear(&mut self) {
        self.notices[..self.len].fill(Notice::default());
        self.len = 0;
    }

    fn push(&mut self, notice: Notice) {
        self.notices[self.len] = notice;
        self.len += 1;
    }
}

#[derive(Clone)]
pub struct Bulletins {
    n: usize,
    tags: [u32; ALL],
    events: [u32; ALL],
    held: [u64; PLACES],
}

fn event_inside(event: u32) -> bool {
    (1..=99_999_999).contains(&event)
}

impl Bulletins {
    pub fn fresh(n: usize) -> Self {
        Self { n, tags: [0; ALL], events: [0; ALL], held: [0; PLACES] }
    }

    fn stands(&self, place: usize) -> bool {
        self.held[place / OWN] >> place & 1 == 1
    }

    pub fn in_limits(&self) -> bool {
        if !(1..=PLACES).contains(&self.n) {
            return false;
        }
        let mut standing = 0;
        for place in 0..OWN * self.n {
            if self.stands(place) {
                let first = place - place % OWN;
                let twin = (first..place).any(|other| self.stands(other) && self.tags[other] == self.tags[place]);
                if twin || !event_inside(self.events[place]) {
                    return false;
                }
                standing |= 1 << place;
            }
        }
        self.held[..self.n].iter().all(|held| held & !standing == 0)
    }

    /// A bulletin more, at the first of its issuer's places that has none; false where it is refused.
    pub fn issue(&mut self, issuer: usize, tag: u32, event: u32) -> bool {
        if !self.in_limits() || issuer >= self.n || !event_inside(event) {
            return false;
        }
        let places = OWN * issuer..OWN * issuer + OWN;
        if places.clone().any(|place| self.stands(place) && self.tags[place] == tag) {
            return false;
        }
        let Some(place) = places.into_iter().find(|&place| !self.stands(place)) else { return false };
        self.tags[place] = tag;
        self.events[place] = event;
        self.held[issuer] |= 1 << place;
        true
    }

    /// The places by issuer, then tag.
    fn in_order(&self) -> [usize; ALL] {
        let mut places = std::array::from_fn(|place| place);
        for four in places[..OWN * self.n].chunks_exact_mut(OWN) {
            four.sort_unstable_by_key(|&place| self.tags[place]);
        }
        places
    }

    /// The group's round, and the bulletins on the same masks.
    pub fn round(
        &mut self,
        group: &mut Group,
        masks: &[u16; PLACES],
        reports: &mut [Report; PLACES],
        shown: &mut [Shown; PLACES],
    ) -> Result<(), Refusal> {
        shown.iter_mut().for_each(Shown::clear);
        require(self.in_limits() && group.stations[0].n == self.n, OutsideLimits)?;
        group.round(masks, reports)?;
        let before = self.held;
        for (place, held) in self.held[..self.n].iter_mut().enumerate() {
            for (sender, other) in before[..self.n].iter().enumerate() {
                if masks[place] >> sender & 1 == 1 {
                    *held |= other;
                }
            }
        }
        if self.held != before {
            let places = self.in_order();
            for station in 0..self.n {
                let new = self.held[station] & !before[station];
                for &place in places[..OWN * self.n].iter().filter(|&&place| new >> place & 1 == 1) {
                    let (tag, event) = (self.tags[place], self.events[place]);
                    shown[station].push(Notice { issuer: (place / OWN) as u32, tag, event });
                }
            }
        }
        Ok(())
    }
}
