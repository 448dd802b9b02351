//! The peer behind the C calls that a host makes (include/relay.h), so that examples/host can run on either.
//!
//! A station lies in the host's bytes as it lies in memory, behind its n and own number; the header that the host is built with has
//! room for it. It is read and written whole, which costs two copies a call. Bytes that no call of these wrote are not judged.

use std::mem::size_of;
use std::slice;

use relay_peer::bodies::{Body, numbers_in_limits};
use relay_peer::frames;
use relay_peer::refusals::{Refusal, number};
use relay_peer::station::{Station, TurnReport};

/// What `bench/host-load` puts for RELAY_STATION_BYTES.
const STATE_BYTES: usize = 2048;
const HEAD_BYTES: usize = 8;
const TURN_BYTES: usize = 220;

const _: () = assert!(HEAD_BYTES + size_of::<Station>() <= STATE_BYTES);

unsafe fn station_in(state: *const u8) -> Station {
    unsafe { state.add(HEAD_BYTES).cast::<Station>().read_unaligned() }
}

unsafe fn put_station(state: *mut u8, station: &Station) {
    unsafe {
        *state = station.n as u8;
        *state.add(1) = station.own as u8;
        state.add(HEAD_BYTES).cast::<Station>().write_unaligned(*station);
    }
}

fn put_body(bytes: &mut [u8], body: &Body) {
    let (kind, event, argument) = body.numbers();
    bytes[..4].copy_from_slice(&[kind, 0, 0, 0]);
    bytes[4..8].copy_from_slice(&event.to_le_bytes());
    bytes[8..12].copy_from_slice(&argument.to_le_bytes());
}

fn put_turn(bytes: &mut [u8], turn: &TurnReport) {
    bytes[..4].copy_from_slice(&[turn.aired.into(), turn.ended.into(), 0, 0]);
    put_body(&mut bytes[4..16], &turn.ended_body);
    put_body(&mut bytes[16..28], &turn.started_body);
    for (part, body) in bytes[28..TURN_BYTES].chunks_exact_mut(12).zip(&turn.row) {
        put_body(part, body);
    }
}

#[unsafe(no_mangle)]
pub unsafe extern "C" fn relay_frame_check(bytes: *const u8, len: usize, n: u32, own: u32, edition: u32) -> u32 {
    number(&frames::check(unsafe { slice::from_raw_parts(bytes, len) }, n as usize, own as usize, edition))
}

#[unsafe(no_mangle)]
pub unsafe extern "C" fn relay_station_fresh_limited(state: *mut u8, _: usize, n: u32, own: u32, limit: u32) -> u32 {
    let made = Station::fresh(n as usize, own as usize, limit as usize);
    if let Ok(station) = &made {
        unsafe { put_station(state, station) };
    }
    number(&made)
}

#[unsafe(no_mangle)]
pub unsafe extern "C" fn relay_station_post(state: *mut u8, _: usize, desk: u32, kind: u32, event: u32, argument: i32, _channel: u32) -> u32 {
    let mut station = unsafe { station_in(state) };
    if station.in_limits() && !numbers_in_limits(kind, event, argument) {
        return Refusal::NotAnEdit as u32;
    }
    let done = station.post(desk as usize, Body::of_numbers(kind, event, argument));
    unsafe { put_station(state, &station) };
    number(&done)
}

#[unsafe(no_mangle)]
pub unsafe extern "C" fn relay_station_write(state: *const u8, _: usize, frame: *mut u8, frame_len: usize, length: *mut u32, _: usize) -> u32 {
    let written = unsafe { station_in(state).write_frame(slice::from_raw_parts_mut(frame, frame_len)) };
    if let Ok(len) = written {
        unsafe { *length = len as u32 };
    }
    number(&written)
}

#[unsafe(no_mangle)]
pub unsafe extern "C" fn relay_station_hear(state: *mut u8, _: usize, frame: *const u8, frame_len: usize, taken: *mut u8, taken_len: usize) -> u32 {
    let (frame, taken) = unsafe { (slice::from_raw_parts(frame, frame_len), slice::from_raw_parts_mut(taken, taken_len)) };
    let mut station = unsafe { station_in(state) };
    let heard = station.hear(frame);
    if let Ok(mask) = heard {
        unsafe { put_station(state, &station) };
        taken.iter_mut().enumerate().for_each(|(k, flag)| *flag = (mask >> k & 1) as u8);
    }
    number(&heard)
}

#[unsafe(no_mangle)]
pub unsafe extern "C" fn relay_station_turn(state: *mut u8, _: usize, report: *mut u8, report_len: usize) -> u32 {
    let mut station = unsafe { station_in(state) };
    let turn = station.turn();
    if let Ok(turn) = &turn {
        unsafe { put_station(state, &station) };
        put_turn(unsafe { slice::from_raw_parts_mut(report, report_len) }, turn);
    }
    number(&turn)
}
