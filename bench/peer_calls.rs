//! The peer's calls on states and answers as bytes, for the comparison with the model (tests/check-peer).
//!
//! A body is its kind, its event and its argument, 1, 4 and 4 bytes, the lowest first; every other number is one byte. A station is N, own number, limit, count,
//! body, labels, acknowledged, held, table, lanes, waiting edits of both desks, the desk that goes first; a record is station, count, body, labels; a lane or queue is its length and its bodies.

use relay_peer::air_logs;
use relay_peer::bodies::Body;
use relay_peer::frames::{self, Record};
use relay_peer::group::{Group, Report};
use relay_peer::labels::{PLACES, pack, unpacked};
use relay_peer::load;
use relay_peer::queues::{DEFAULT_LIMIT, Lane, Queue};
use relay_peer::refusals::{Refusal, number};
use relay_peer::station::{Station, TurnReport};

/// Reads bytes from the front of a slice.
struct Reader<'a>(&'a [u8]);

impl Reader<'_> {
    fn bytes<const SIZE: usize>(&mut self) -> [u8; SIZE] {
        let (first, rest) = self.0.split_first_chunk().expect("too few bytes");
        self.0 = rest;
        *first
    }

    fn small(&mut self) -> usize {
        self.bytes::<1>()[0].into()
    }

    fn flags(&mut self) -> [bool; PLACES] {
        self.bytes().map(|byte: u8| byte != 0)
    }

    fn body(&mut self) -> Body {
        let [kind] = self.bytes();
        Body::of_checked(kind, u32::from_le_bytes(self.bytes()), i32::from_le_bytes(self.bytes()))
    }

    fn record(&mut self) -> Record {
        Record { station: self.small(), count: self.bytes::<1>()[0], body: self.body(), labels: pack(&self.bytes(), PLACES) }
    }

    fn station(&mut self) -> Station {
        let (n, own, limit, [count], body) = (self.small(), self.small(), self.small(), self.bytes(), self.body());
        let (labels, acked, held) = (self.bytes(), self.flags(), self.flags());
        let table = std::array::from_fn(|_| self.record());
        let lanes = std::array::from_fn(|_| Lane { len: self.small(), bodies: [self.body(), self.body()] });
        let waiting = std::array::from_fn(|_| Queue { len: self.small(), slots: std::array::from_fn(|_| self.body()) });
        let first = self.small();
        Station { n, own, limit, waiting, first, acked, body, count, labels, held, table, lanes }
    }

    fn group(&mut self) -> Group {
        let mut group = Group::fresh(1, DEFAULT_LIMIT).expect("one is a size");
        group.stations = std::array::from_fn(|_| self.station());
        group
    }
}

fn put_body(out: &mut Vec<u8>, body: &Body) {
    let (kind, event, argument) = body.numbers();
    out.push(kind);
    out.extend(event.to_le_bytes());
    out.extend(argument.to_le_bytes());
}

fn put_bodies(out: &mut Vec<u8>, bodies: &[Body]) {
    bodies.iter().for_each(|body| put_body(out, body));
}

fn put_station(out: &mut Vec<u8>, station: &Station) {
    out.extend([station.n as u8, station.own as u8, station.limit as u8, station.count]);
    put_body(out, &station.body);
    out.extend(station.labels);
    out.extend(station.acked.map(u8::from));
    out.extend(station.held.map(u8::from));
    for record in &station.table {
        out.extend([record.station as u8, record.count]);
        put_body(out, &record.body);
        out.extend((0..PLACES).map(|k| unpacked(record.labels, k)));
    }
    for lane in &station.lanes {
        out.push(lane.len as u8);
        put_bodies(out, &lane.bodies);
    }
    for queue in &station.waiting {
        out.push(queue.len as u8);
        put_bodies(out, &queue.slots);
    }
    out.push(station.first as u8);
}

fn put_turn(out: &mut Vec<u8>, turn: &TurnReport) {
    out.push(turn.aired.into());
    put_bodies(out, &turn.row);
    out.push(turn.ended.into());
    put_bodies(out, &[turn.ended_body, turn.started_body]);
}

fn put_report(out: &mut Vec<u8>, report: &Report) {
    for taking in report.entries() {
        out.push(taking.source as u8);
        put_body(out, &taking.body);
    }
    put_turn(out, report.turn());
}

fn put_group(out: &mut Vec<u8>, group: &Group) {
    group.stations.iter().for_each(|station| put_station(out, station));
}

/// The call of this name on these bytes: the answer's refusal and its other number, then the state after it and what it reports.
fn answer(name: u8, mut given: Reader) -> Vec<u8> {
    let mut out = Vec::new();
    let (answer, number_out): (Result<(), Refusal>, usize);
    match name {
        b'p' => {
            let (mut station, desk, body) = (given.station(), given.small(), given.body());
            (answer, number_out) = (station.post(desk, body), 0);
            put_station(&mut out, &station);
        }
        b'w' => {
            let (station, mut buffer) = (given.station(), given.0.to_vec());
            let written = station.write_frame(&mut buffer);
            (answer, number_out) = (written.map(|_| ()), written.unwrap_or(0));
            out = buffer;
        }
        b'h' => {
            let mut station = given.station();
            let taken = station.hear(given.0);
            (answer, number_out) = (taken.map(|_| ()), taken.unwrap_or(0).into());
            put_station(&mut out, &station);
        }
        b't' => {
            let mut station = given.station();
            let turned = station.turn();
            (answer, number_out) = (turned.map(|_| ()), 0);
            put_station(&mut out, &station);
            put_turn(&mut out, &turned.unwrap_or(TurnReport::NONE));
        }
        b'f' => {
            let (n, own, limit) = (given.small(), given.small(), given.small());
            let station = Station::fresh(n, own, limit);
            (answer, number_out) = (station.map(|_| ()), 0);
            put_station(&mut out, &station.unwrap_or(Station::fresh(1, 0, DEFAULT_LIMIT).expect("a station alone")));
        }
        b'n' => {
            let (n, limit) = (given.small(), given.small());
            let group = Group::fresh(n, limit);
            (answer, number_out) = (group.as_ref().map(|_| ()).map_err(|&refusal| refusal), 0);
            put_group(&mut out, &group.unwrap_or(Group::fresh(1, DEFAULT_LIMIT).expect("a station alone")));
        }
        b'g' => {
            let (mut group, place, desk, body) = (given.group(), given.small(), given.small(), given.body());
            (answer, number_out) = (group.post(place, desk, body), 0);
            put_group(&mut out, &group);
        }
        b'r' => {
            let mut group = given.group();
            let masks = std::array::from_fn(|_| u16::from_le_bytes(given.bytes()));
            let mut reports = [Report::NONE; PLACES];
            (answer, number_out) = (group.round(&masks, &mut reports), 0);
            put_group(&mut out, &group);
            reports.iter().for_each(|report| put_report(&mut out, report));
        }
        _ => panic!("no call has this name"),
    }
    let mut bytes = vec![number(&answer) as u8];
    bytes.extend((number_out as u32).to_le_bytes());
    bytes.extend(out);
    bytes
}

/// Writes the answer to a buffer that is long enough, and gives its length.
///
/// # Safety
/// Both pointers are those of slices of the lengths given.
#[unsafe(no_mangle)]
pub unsafe extern "C" fn peer_call(name: u8, given: *const u8, given_len: usize, out: *mut u8, out_len: usize) -> usize {
    // SAFETY: by the condition above.
    let (given, out) = unsafe { (std::slice::from_raw_parts(given, given_len), std::slice::from_raw_parts_mut(out, out_len)) };
    let bytes = answer(name, Reader(given));
    out[..bytes.len()].copy_from_slice(&bytes);
    bytes.len()
}

/// The frame check.
///
/// # Safety
/// The pointer is that of a slice of the length given.
#[unsafe(no_mangle)]
pub unsafe extern "C" fn frame_check_peer_rust(bytes: *const u8, len: usize, n: u32, own: u32, edition: u32) -> u32 {
    // SAFETY: by the condition above.
    let frame = unsafe { std::slice::from_raw_parts(bytes, len) };
    number(&frames::check(frame, n as usize, own as usize, edition))
}

/// The load generator, as relay_load of relay.
///
/// # Safety
/// Both pointers are those of slices of the lengths given.
#[unsafe(no_mangle)]
pub unsafe extern "C" fn peer_load(state: u32, n: u32, due: u32, head: u32, out: *mut u8, out_len: usize, next: *mut u32, next_len: usize) -> u32 {
    // SAFETY: by the condition above.
    let (out, next) = unsafe { (std::slice::from_raw_parts_mut(out, out_len), std::slice::from_raw_parts_mut(next, next_len)) };
    load::call(state, n, due, head, out, next)
}

/// The comparison of two air logs, as relay_compare of relay; the answer has two places.
///
/// # Safety
/// The pointers are those of slices of the lengths given, and of two places.
#[unsafe(no_mangle)]
pub unsafe extern "C" fn peer_compare(first: *const u8, first_len: usize, p: u32, second: *const u8, second_len: usize, q: u32, answer: *mut u64) -> u32 {
    // SAFETY: by the condition above.
    let (first, second) = unsafe { (std::slice::from_raw_parts(first, first_len), std::slice::from_raw_parts(second, second_len)) };
    let compared = air_logs::compare(first, p as usize, second, q as usize);
    if let Ok(compared) = compared {
        // SAFETY: by the condition above.
        unsafe { answer.cast::<[u64; 2]>().write(compared.numbers()) };
    }
    number(&compared)
}
