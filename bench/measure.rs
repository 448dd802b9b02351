//! Times the project and its peers in one process, in turn, and prints the smallest of several times, one line a measure. A measure whose project
//! side is not linked in shows the peer alone. With the word `quick` the runs are shorter.

use std::ffi::c_long;
use std::hint::black_box;
use std::process::ExitCode;
use std::time::{Duration, Instant};

use relay_peer::{air_logs, forecast, frames, load, measured, merge, questions, recorded, refusals};

/// A slice and two numbers in, a number out: the form of everything that is measured but the forecast, the merge, the questions and the comparison of air logs.
type Function = unsafe extern "C" fn(*const u8, usize, u32, u32) -> u32;

/// A frame check: a frame, N, own number and edition.
type Check = unsafe extern "C" fn(*const u8, usize, u32, u32, u32) -> u32;

/// The forecast: a log and N in, the counts of ends and the rounds of the last into two buffers.
type Forecast = unsafe extern "C" fn(*const u16, usize, u32, *mut u16, usize, *mut u16, usize) -> u32;

/// The merge: two logs and N in, the merged log and its number of masks into two buffers.
type Merge = unsafe extern "C" fn(*const u16, usize, *const u16, usize, u32, *mut u16, usize, *mut u32, usize) -> u32;

/// The questions: a log, N and a page in, an answer a question into a buffer.
type Questions = unsafe extern "C" fn(*const u16, usize, u32, *const u32, usize, *mut u32, usize) -> u32;

/// The comparison of air logs: two listings with their stations in, the answer and its position into a buffer.
type Compare = unsafe extern "C" fn(*const u8, usize, u32, *const u8, usize, u32, *mut u64, usize) -> u32;

/// The comparison of air logs of crate relay.
#[cfg(relay)]
const PROJECT_COMPARE: Option<Compare> = Some(relay_compare);
#[cfg(not(relay))]
const PROJECT_COMPARE: Option<Compare> = None;

/// A station's rounds beside recorded frames, and N: a checksum.
type StationRounds = fn(&[Vec<Vec<u8>>], usize) -> u32;

/// The codec of a station: bytes, how often they are read and written, and whether they are judged before.
#[cfg(all(relay, relay_bench))]
type Codec = unsafe extern "C" fn(*mut u8, usize, u32, u32) -> u32;

/// The frame check of crate relay.
#[cfg(relay)]
const PROJECT_CHECK: Option<Check> = Some(relay_frame_check);
#[cfg(not(relay))]
const PROJECT_CHECK: Option<Check> = None;

/// The forecast of crate relay.
#[cfg(relay)]
const PROJECT_FORECAST: Option<Forecast> = Some(relay_forecast);
#[cfg(not(relay))]
const PROJECT_FORECAST: Option<Forecast> = None;

/// The merge of crate relay.
#[cfg(relay)]
const PROJECT_MERGE: Option<Merge> = Some(relay_merge);
#[cfg(not(relay))]
const PROJECT_MERGE: Option<Merge> = None;

/// The questions of crate relay.
#[cfg(relay)]
const PROJECT_QUESTIONS: Option<Questions> = Some(relay_questions);
#[cfg(not(relay))]
const PROJECT_QUESTIONS: Option<Questions> = None;

/// The rounds of crate relay_bench.
#[cfg(relay_bench)]
const PROJECT_ROUNDS: Option<Function> = Some(relay_bench_rounds);
#[cfg(not(relay_bench))]
const PROJECT_ROUNDS: Option<Function> = None;

/// The rounds with bulletins of crate relay_bench.
#[cfg(relay_bench)]
const PROJECT_BULLETINS: Option<Function> = Some(relay_bench_bulletins);
#[cfg(not(relay_bench))]
const PROJECT_BULLETINS: Option<Function> = None;

/// A station's rounds through the calls of crate relay.
#[cfg(relay)]
const PROJECT_STATION: Option<StationRounds> = Some(station_project);
#[cfg(not(relay))]
const PROJECT_STATION: Option<StationRounds> = None;

/// The load generator of crate relay.
#[cfg(relay)]
const PROJECT_LOAD: Option<Function> = Some(load_project);
#[cfg(not(relay))]
const PROJECT_LOAD: Option<Function> = None;

const CHECK_PEERS: &[(&str, Check)] = &[
    ("Rust", frame_check_rust),
    #[cfg(gcc)]
    ("gcc -O2", frame_check_peer_gcc),
    #[cfg(clang)]
    ("clang -O2", frame_check_peer_clang),
];

unsafe extern "C" {
    fn clock() -> c_long;
    #[cfg(relay)]
    fn relay_frame_check(bytes: *const u8, len: usize, n: u32, own: u32, edition: u32) -> u32;
    #[cfg(relay)]
    fn relay_forecast(log: *const u16, len: usize, n: u32, ends: *mut u16, ends_len: usize, last: *mut u16, last_len: usize) -> u32;
    #[cfg(relay)]
    fn relay_load(state: u32, n: u32, due: u32, head: u32, buffer: *mut u8, len: usize, next: *mut u32, places: usize) -> u32;
    #[cfg(relay)]
    fn relay_merge(
        first: *const u16,
        first_len: usize,
        second: *const u16,
        second_len: usize,
        n: u32,
        merged: *mut u16,
        merged_len: usize,
        masks: *mut u32,
        masks_len: usize,
    ) -> u32;
    #[cfg(relay)]
    fn relay_questions(
        log: *const u16,
        len: usize,
        n: u32,
        page: *const u32,
        page_len: usize,
        answers: *mut u32,
        answers_len: usize,
    ) -> u32;
    #[cfg(relay)]
    fn relay_compare(
        first: *const u8,
        first_len: usize,
        p: u32,
        second: *const u8,
        second_len: usize,
        q: u32,
        answer: *mut u64,
        answer_len: usize,
    ) -> u32;
    #[cfg(relay)]
    fn relay_station_fresh(state: *mut u8, state_len: usize, n: u32, own: u32) -> u32;
    #[cfg(relay)]
    fn relay_station_post(state: *mut u8, state_len: usize, desk: u32, kind: u32, event: u32, argument: i32, channel: u32) -> u32;
    #[cfg(relay)]
    fn relay_station_write(state: *const u8, state_len: usize, frame: *mut u8, frame_len: usize, length: *mut u32, length_len: usize) -> u32;
    #[cfg(relay)]
    fn relay_station_hear(state: *mut u8, state_len: usize, frame: *const u8, frame_len: usize, taken: *mut u8, taken_len: usize) -> u32;
    #[cfg(relay)]
    fn relay_station_turn(state: *mut u8, state_len: usize, report: *mut u8, report_len: usize) -> u32;
    #[cfg(all(relay, relay_bench))]
    fn relay_bench_codec(state: *mut u8, state_len: usize, times: u32, judged: u32) -> u32;
    #[cfg(relay_bench)]
    fn relay_bench_rounds(schedule: *const u8, len: usize, n: u32, rounds: u32) -> u32;
    #[cfg(relay_bench)]
    fn relay_bench_bulletins(schedule: *const u8, len: usize, n: u32, rounds: u32) -> u32;
    #[cfg(gcc)]
    fn frame_check_peer_gcc(bytes: *const u8, len: usize, n: u32, own: u32, edition: u32) -> u32;
    #[cfg(clang)]
    fn frame_check_peer_clang(bytes: *const u8, len: usize, n: u32, own: u32, edition: u32) -> u32;
}

extern "C" fn frame_check_rust(bytes: *const u8, len: usize, n: u32, own: u32, edition: u32) -> u32 {
    // SAFETY: the measures below hand in a whole slice.
    let frame = unsafe { std::slice::from_raw_parts(bytes, len) };
    refusals::number(&frames::check(frame, n as usize, own as usize, edition))
}

extern "C" fn rounds_rust(schedule: *const u8, len: usize, n: u32, rounds: u32) -> u32 {
    // SAFETY: as above.
    measured::rounds(unsafe { std::slice::from_raw_parts(schedule, len) }, n, rounds)
}

extern "C" fn bulletins_rust(schedule: *const u8, len: usize, n: u32, rounds: u32) -> u32 {
    // SAFETY: as above.
    measured::bulletins(unsafe { std::slice::from_raw_parts(schedule, len) }, n, rounds)
}

extern "C" fn rounds_by_value(schedule: *const u8, len: usize, n: u32, rounds: u32) -> u32 {
    // SAFETY: as above.
    measured::rounds_by_value(unsafe { std::slice::from_raw_parts(schedule, len) }, n, rounds)
}

extern "C" fn forecast_rust(log: *const u16, len: usize, n: u32, ends: *mut u16, _: usize, last: *mut u16, _: usize) -> u32 {
    // SAFETY: the measures below hand in a whole slice, and two buffers of sixteen entries.
    let log = unsafe { std::slice::from_raw_parts(log, len) };
    let answer = forecast::forecast(log, n as usize);
    if let Ok(forecast) = answer {
        unsafe {
            ends.cast::<[u16; 16]>().write(forecast.ends);
            last.cast::<[u16; 16]>().write(forecast.last);
        }
    }
    refusals::number(&answer)
}

/// The rounds of a script, call by call; the sum has the length and the state of each round, and one of its bytes, another in each.
fn load_rounds(rounds: u32, call: impl Fn(u32, u32, &mut [u8], &mut [u32; 2]) -> u32) -> u32 {
    let (mut buffer, mut next, mut sum) = ([0; load::ENOUGH], [1, 0], 0u32);
    for due in (1..=rounds).rev() {
        let refusal = call(next[0], due, &mut buffer, &mut next);
        let byte = buffer[(due % next[1].max(1)) as usize];
        sum = sum.wrapping_mul(31).wrapping_add(refusal + next[1] + u32::from(byte)).wrapping_add(next[0]);
    }
    sum
}

extern "C" fn load_rust(_bytes: *const u8, _len: usize, n: u32, rounds: u32) -> u32 {
    load_rounds(rounds, |state, due, buffer, next| load::call(black_box(state), n, due, black_box(0), buffer, next))
}

#[cfg(relay)]
extern "C" fn load_project(_bytes: *const u8, _len: usize, n: u32, rounds: u32) -> u32 {
    load_rounds(rounds, |state, due, buffer, next| {
        // SAFETY: pointers and lengths are those of slices that live through the call.
        unsafe { relay_load(state, n, due, 0, buffer.as_mut_ptr(), buffer.len(), next.as_mut_ptr(), next.len()) }
    })
}

/// The bytes of a station's state and of a turn's report: RELAY_STATION_BYTES and RELAY_TURN_BYTES of include/relay.h.
#[cfg(relay)]
const STATION_BYTES: usize = 1492;
#[cfg(relay)]
const TURN_BYTES: usize = 220;

/// What `recorded::rounds` does, through the calls for C: the state after it, and the sum; nothing where a call is refused.
#[cfg(relay)]
fn play(recorded: &[Vec<Vec<u8>>], n: usize) -> Option<([u8; STATION_BYTES], u32)> {
    use recorded::{OWN, mix};
    let (mut state, mut frame, mut taken, mut report) = ([0u8; STATION_BYTES], [0u8; frames::LARGEST_FRAME], [0u8; 16], [0u8; TURN_BYTES]);
    let (mut length, mut sum) = ([0u32], 0u32);
    let at = state.as_mut_ptr();
    let done = |refusal: u32| (refusal == 0).then_some(());
    let number = |bytes: &[u8], at: usize| u32::from_le_bytes([bytes[at], bytes[at + 1], bytes[at + 2], bytes[at + 3]]);
    // SAFETY: pointers and lengths are those of arrays and slices that live through the calls.
    unsafe {
        done(relay_station_fresh(at, STATION_BYTES, n as u32, OWN as u32))?;
        for (round, frames) in recorded.iter().enumerate() {
            if let Some((desk, event, start)) = recorded::due(round, OWN) {
                sum = mix(sum, (relay_station_post(at, STATION_BYTES, desk as u32, 2, event, start, 0) == 0).into());
            }
            done(relay_station_write(at, STATION_BYTES, frame.as_mut_ptr(), frame.len(), length.as_mut_ptr(), 1))?;
            sum = mix(mix(sum, length[0]), frame[round % length[0] as usize].into());
            for (_, heard) in frames.iter().enumerate().filter(|&(sender, _)| sender != OWN) {
                done(relay_station_hear(at, STATION_BYTES, heard.as_ptr(), heard.len(), taken.as_mut_ptr(), taken.len()))?;
                sum = mix(sum, taken.iter().rev().fold(0, |set, &one| 2 * set + u32::from(one)));
            }
            done(relay_station_turn(at, STATION_BYTES, report.as_mut_ptr(), report.len()))?;
            sum = mix(sum, u32::from(report[0]) + 2 * u32::from(report[1]));
            for body in [28 + 12 * (round % 16), 4, 16] {
                sum = mix(mix(sum, report[body].into()), number(&report, body + 4));
            }
        }
    }
    Some((state, sum))
}

#[cfg(relay)]
fn station_project(recorded: &[Vec<Vec<u8>>], n: usize) -> u32 {
    play(recorded, n).map_or(0, |(_, sum)| sum)
}

#[allow(clippy::too_many_arguments)]
extern "C" fn merge_rust(
    first: *const u16,
    first_len: usize,
    second: *const u16,
    second_len: usize,
    n: u32,
    merged: *mut u16,
    merged_len: usize,
    masks: *mut u32,
    _: usize,
) -> u32 {
    // SAFETY: the measures below hand in two whole slices, a whole buffer, and room for one number.
    let (first, second, merged) = unsafe {
        (
            std::slice::from_raw_parts(first, first_len),
            std::slice::from_raw_parts(second, second_len),
            std::slice::from_raw_parts_mut(merged, merged_len),
        )
    };
    let answer = merge::merge(first, second, n as usize, merged);
    if let Ok(count) = answer {
        unsafe { masks.write(count as u32) };
    }
    refusals::number(&answer)
}

extern "C" fn questions_rust(
    log: *const u16,
    len: usize,
    n: u32,
    page: *const u32,
    page_len: usize,
    answers: *mut u32,
    answers_len: usize,
) -> u32 {
    // SAFETY: the measures below hand in two whole slices and a whole buffer.
    let (log, page, answers) = unsafe {
        (
            std::slice::from_raw_parts(log, len),
            std::slice::from_raw_parts(page, page_len),
            std::slice::from_raw_parts_mut(answers, answers_len),
        )
    };
    refusals::number(&questions::answer(log, n as usize, page, answers))
}

#[allow(clippy::too_many_arguments)]
extern "C" fn compare_rust(
    first: *const u8,
    first_len: usize,
    p: u32,
    second: *const u8,
    second_len: usize,
    q: u32,
    answer: *mut u64,
    answer_len: usize,
) -> u32 {
    // SAFETY: the measures below hand in two whole slices and a whole buffer.
    let (first, second, answer) = unsafe {
        (
            std::slice::from_raw_parts(first, first_len),
            std::slice::from_raw_parts(second, second_len),
            std::slice::from_raw_parts_mut(answer, answer_len),
        )
    };
    let compared = air_logs::compare(first, p as usize, second, q as usize);
    if let Ok(compared) = compared {
        answer.copy_from_slice(&compared.numbers());
    }
    refusals::number(&compared)
}

/// What one sample runs: about a millisecond, so that on a busy machine some samples stay undisturbed.
const CHECKS: u32 = 25_600;
const STATION_ROUNDS: u32 = 2_048;
const LOAD_STATIONS: u32 = 65_536;
const RECORDED_ROUNDS: usize = 64;
#[cfg(all(relay, relay_bench))]
const CODED: u32 = 2_048;

fn call(function: Function, bytes: &[u8], first: u32, second: u32) -> u32 {
    // SAFETY: pointer and length are those of a slice that lives through the call.
    unsafe { function(bytes.as_ptr(), bytes.len(), first, second) }
}

/// What station 0 of n answers to a frame of edition 0.
fn check(function: Check, frame: &[u8], n: u32) -> u32 {
    // SAFETY: pointer and length are those of a slice that lives through the call.
    unsafe { function(frame.as_ptr(), frame.len(), n, 0, 0) }
}

/// A checksum of so many forecasts of a log.
fn foretell(function: Forecast, log: &[u16], n: u32, times: u32) -> u32 {
    let mut entries = [0u16; 32];
    let mut sum = 0u32;
    for _ in 0..times {
        let (ends, last) = entries.split_at_mut(16);
        // SAFETY: the log is a slice that lives through the call, and each buffer has its sixteen entries.
        let refusal = unsafe { function(log.as_ptr(), log.len(), n, ends.as_mut_ptr(), 16, last.as_mut_ptr(), 16) };
        sum = entries.iter().fold(sum.wrapping_add(refusal), |sum, &entry| sum.wrapping_mul(31).wrapping_add(entry.into()));
    }
    sum
}

/// A checksum of so many merges of two logs.
fn join(function: Merge, first: &[u16], second: &[u16], n: u32, times: u32) -> u32 {
    let mut merged = vec![0u16; first.len().max(second.len()) + 1];
    let mut masks = [0u32];
    let mut sum = 0u32;
    for _ in 0..times {
        // SAFETY: the logs are slices that live through the call, and each buffer has its length.
        let refusal = unsafe {
            function(
                first.as_ptr(),
                first.len(),
                second.as_ptr(),
                second.len(),
                n,
                black_box(merged.as_mut_ptr()),
                merged.len(),
                masks.as_mut_ptr(),
                1,
            )
        };
        sum = sum.wrapping_add(refusal).wrapping_mul(31).wrapping_add(masks[0]);
    }
    merged.iter().fold(sum, |sum, &mask| sum.wrapping_mul(31).wrapping_add(mask.into()))
}

/// A checksum of the answers to a page.
fn ask(function: Questions, log: &[u16], n: u32, page: &[u32]) -> u32 {
    let mut answers = [0u32; 64];
    // SAFETY: log and page are slices that live through the call, and the buffer has its length.
    let refusal = unsafe {
        function(log.as_ptr(), log.len(), n, page.as_ptr(), page.len(), black_box(answers.as_mut_ptr()), answers.len())
    };
    answers.iter().fold(refusal, |sum, &answer| sum.wrapping_mul(31).wrapping_add(answer))
}

/// The answer of a comparison, as one number.
fn compare(function: Compare, first: &[u8], p: u32, second: &[u8], q: u32) -> u32 {
    let mut answer = [0u64; 2];
    // SAFETY: the listings are slices that live through the call, and the buffer has its length.
    let refusal = unsafe {
        function(first.as_ptr(), first.len(), p, second.as_ptr(), second.len(), q, black_box(answer.as_mut_ptr()), answer.len())
    };
    answer.iter().fold(refusal, |sum, &number| sum.wrapping_mul(31).wrapping_add(number as u32))
}

/// A listing of so many lines of the letters D, A and E, as sixteen stations print them: widths of numbers and letters are drawn. Every station airs the same
/// edits, the last of them another one where `other` is set.
fn drawn_listing(lines: usize, other: bool) -> Vec<u8> {
    let mut listing = Vec::with_capacity(lines * 35 + 4);
    let (mut state, mut aired) = (1u32, [0u32; 16]);
    let mut draw = || {
        state = state.wrapping_mul(1_664_525).wrapping_add(1_013_904_223);
        state >> 16
    };
    for line in 0..lines {
        let (station, letter) = (draw() % 16, ['D', 'A', 'D', 'A', 'E'][draw() as usize % 5]);
        let number = if letter == 'A' { &mut aired[station as usize] } else { &mut draw() };
        *number += 1;
        let mixed = number.wrapping_mul(2_654_435_769) >> (*number % 24);
        let (event, argument) = (1 + mixed % 99_999_999, (mixed % 180_001) as i32 - if mixed % 3 == 0 { 90_000 } else { 0 });
        let event = event + u32::from(other && line + 16 > lines);
        listing.extend(format!("{:6} {letter}{station:3}{:3}{:2}{event:9}{argument:9}\n", line / 30, mixed % 16, 2 + mixed % 3).bytes());
    }
    listing.extend(b"END\n");
    listing
}

/// Sixty-four questions about n stations, with numbers up to a most.
fn page_of_questions(n: u32, most: u32) -> Vec<u32> {
    (0..64).flat_map(|i| [i % n, i / 7 % n, 1 + i * most / 63]).collect()
}

/// What this process has had of its processor: on a busy machine the clock on the wall also counts others.
fn processor_time() -> Duration {
    // SAFETY: the C library's function has no conditions; POSIX sets its unit to a microsecond.
    Duration::from_micros(unsafe { clock() } as u64)
}

/// One measure: the work is some units of `function`, and gives a checksum.
struct Measure<'a, F> {
    name: String,
    units: u32,
    work: &'a dyn Fn(F) -> u32,
}

impl<F: Copy> Measure<'_, F> {
    fn time(&self, function: F) -> Duration {
        let begun = processor_time();
        black_box((self.work)(function));
        processor_time() - begun
    }

    /// Prints the line; false if the project and the peer do not give the same answer.
    fn print(&self, project: Option<F>, peer: F, span: Duration) -> bool {
        let name = &self.name;
        if let Some(project) = project
            && (self.work)(project) != (self.work)(peer)
        {
            println!("{name}: project and peer give different answers");
            return false;
        }
        let mut best = [Duration::MAX; 2];
        let begun = Instant::now();
        let mut times = 0;
        while times < 5 || begun.elapsed() < span {
            for (best, function) in best.iter_mut().zip([project, Some(peer)]) {
                if let Some(function) = function {
                    *best = self.time(function).min(*best);
                }
            }
            times += 1;
        }
        let [project_time, peer_time] = best.map(|time| time.as_nanos() as f64 / f64::from(self.units));
        match project {
            Some(_) => println!("{name}: project {project_time:.1} ns, peer {peer_time:.1} ns, ratio {:.2}", project_time / peer_time),
            None => println!("{name}: project absent, peer {peer_time:.1} ns"),
        }
        true
    }
}

/// Prints the time of reading a station's bytes and writing them again, which the project alone does; false if the bytes change.
#[cfg(all(relay, relay_bench))]
fn print_codec(name: &str, codec: Codec, state: &[u8], judged: u32, span: Duration) -> bool {
    let mut bytes = state.to_vec();
    let mut best = Duration::MAX;
    let begun = Instant::now();
    while begun.elapsed() < span {
        let from = processor_time();
        // SAFETY: pointer and length are those of a vector that lives through the call.
        black_box(unsafe { codec(bytes.as_mut_ptr(), bytes.len(), CODED, judged) });
        best = best.min(processor_time() - from);
    }
    println!("{name}: project {:.1} ns", best.as_nanos() as f64 / f64::from(CODED));
    bytes == state
}

/// The frame of station 1 among n, with a record of each station; every kind of body comes.
fn frame(n: u8, seed: u32) -> Vec<u8> {
    let mut bytes = vec![n, 1, n, 0];
    for station in 0..n {
        let mixed = seed.wrapping_mul(2_654_435_769).wrapping_add(u32::from(station) * 40_503) >> 8;
        let (kind, event, argument) = match mixed % 8 {
            0 => (0, 0, 0),
            1 | 2 => (1, 0, 0),
            3 => (3, 1 + mixed, 0),
            4 => (4, 1 + mixed, (mixed % 180_001) as i32 - 90_000),
            _ => (2, 1 + mixed, (mixed % 1_000_000) as i32),
        };
        let labels = (0..n).fold(0, |word, k| word | (mixed >> (k % 7)) % 3 << (2 * k));
        bytes.extend([station, (mixed % (2 * u32::from(n) - 1)) as u8, kind, 0]);
        bytes.extend(event.to_le_bytes());
        bytes.extend(argument.to_le_bytes());
        bytes.extend(labels.to_le_bytes());
    }
    bytes
}

/// In the full mesh everyone hears everyone.
fn full_mesh(_n: usize) -> Vec<u8> {
    vec![0xFF; measured::MASKS_SIZE]
}

/// In a sparse round a station hears its neighbour and one other, another in each round.
fn sparse(n: usize) -> Vec<u8> {
    let masks = |round: usize| (0..16).flat_map(move |i| (1u16 << ((i + 1) % n) | 1 << ((i + round) % n)).to_le_bytes());
    (0..n).flat_map(masks).collect()
}

/// A log of so many rounds in which each bit of each mask is drawn.
fn drawn_log(masks: usize) -> Vec<u16> {
    let draw = |state: &mut u32| {
        *state = state.wrapping_mul(1_664_525).wrapping_add(1_013_904_223);
        Some((*state >> 16) as u16)
    };
    std::iter::repeat(()).scan(1, |state, ()| draw(state)).take(masks).collect()
}

fn main() -> ExitCode {
    let quick = std::env::args().any(|word| word == "quick");
    let span = Duration::from_millis(if quick { 100 } else { 1500 });
    let mut agree = true;

    for n in [2, 16] {
        let frames: Vec<_> = (0..64).map(|seed| frame(n, seed)).collect();
        let size = frames[0].len();
        for &(peer, function) in CHECK_PEERS {
            let work = |function| frames.iter().cycle().take(CHECKS as usize).map(|frame| check(function, frame, n.into())).sum();
            let name = format!("frame check of {size} bytes, peer {peer}");
            agree &= Measure { name, units: CHECKS, work: &work }.print(PROJECT_CHECK, function, span);
        }
    }
    for (links, schedule) in [("full-mesh", full_mesh as fn(usize) -> Vec<u8>), ("sparse", sparse)] {
        for n in [2, 8, 16] {
            let schedule = schedule(n as usize);
            let rounds = STATION_ROUNDS / n;
            let work = |function| call(function, &schedule, n, rounds);
            for (peer, function) in [("", rounds_rust as Function), (", peer by value", rounds_by_value)] {
                let name = format!("{links} round, N = {n}{peer}");
                agree &= Measure { name, units: rounds, work: &work }.print(PROJECT_ROUNDS, function, span);
            }
        }
    }
    for (links, schedule) in [("full-mesh", full_mesh as fn(usize) -> Vec<u8>), ("sparse", sparse)] {
        for n in [2, 16] {
            let schedule = schedule(n as usize);
            let rounds = STATION_ROUNDS / n;
            let work = |function| call(function, &schedule, n, rounds);
            let name = format!("{links} round with full bulletins, N = {n}");
            agree &= Measure { name, units: rounds, work: &work }.print(PROJECT_BULLETINS, bulletins_rust as Function, span);
        }
    }
    for (links, rounds, n) in [
        ("full-mesh", 2048, 16),
        ("full-mesh", 2048, 8),
        ("full-mesh", 2048, 2),
        ("full-mesh", 256, 16),
        ("drawn", 2048, 16),
        ("drawn", 2048, 8),
        ("drawn", 2048, 2),
    ] {
        let masks = rounds * n as usize;
        let log = if links == "drawn" { drawn_log(masks) } else { vec![0xFFFF; masks] };
        let times = (32_768 / masks).max(1) as u32;
        let work = |function| foretell(function, &log, n, times);
        let name = format!("forecast, {rounds} {links} rounds, N = {n}, a round");
        agree &= Measure { name, units: times * rounds as u32, work: &work }.print(PROJECT_FORECAST, forecast_rust as Forecast, span);
    }
    for (shorter, n) in [(2048, 16), (1024, 16), (2048, 8), (2048, 3), (2048, 2)] {
        let masks = 2048 * n as usize;
        let drawn = drawn_log(masks + shorter * n as usize);
        let (first, second) = drawn.split_at(masks);
        let times = (8_388_608 / masks) as u32;
        let work = |function| join(function, first, second, n, times);
        let name = format!("merge, 2048 rounds and {shorter}, N = {n}, a round");
        agree &= Measure { name, units: times * 2048, work: &work }.print(PROJECT_MERGE, merge_rust as Merge, span);
    }
    for (links, most) in [("drawn", 1000), ("full-mesh", 1100), ("drawn", 10)] {
        let log = if links == "drawn" { drawn_log(2048 * 16) } else { vec![0xFFFF; 2048 * 16] };
        let page = page_of_questions(16, most);
        let work = |function| ask(function, &log, 16, &page);
        let name = format!("64 questions up to number {}, 2048 {links} rounds, N = 16, a round", 1 + most);
        agree &= Measure { name, units: 2048, work: &work }.print(PROJECT_QUESTIONS, questions_rust as Questions, span);
        if let (Some(questions), Some(forecast)) = (PROJECT_QUESTIONS, PROJECT_FORECAST) {
            // Here the peer is the project's own forecast of the same log.
            let work = |asked| {
                black_box(if asked { ask(questions, &log, 16, &page) } else { foretell(forecast, &log, 16, 1) });
                0
            };
            let name = format!("64 questions up to number {}, 2048 {links} rounds, N = 16, a round, peer the forecast alone", 1 + most);
            agree &= Measure { name, units: 2048, work: &work }.print(Some(true), false, span);
        }
    }
    let many = if quick { 2_000 } else { 20_000 };
    let work = |function| call(function, &full_mesh(16), 16, many);
    let name = format!("full-mesh round, N = 16, {many} rounds in one run");
    agree &= Measure { name, units: many, work: &work }.print(PROJECT_ROUNDS, rounds_rust, span);
    for n in [2, 8, 16] {
        let rounds = LOAD_STATIONS / n;
        let work = |function| call(function, &[], n, rounds);
        let name = format!("load of a round, N = {n}");
        agree &= Measure { name, units: rounds, work: &work }.print(PROJECT_LOAD, load_rust, span);
    }
    let lines = if quick { 300_000 } else { 3_000_000 };
    let (first, second) = (drawn_listing(lines, false), drawn_listing(lines, true));
    let megabytes = (first.len() + second.len()) as f64 / 1e6;
    for (p, q) in [(0, 0), (3, 12)] {
        let work = |function| compare(function, &first, p, &second, q);
        let name = format!("comparison of two listings, {megabytes:.0} MB together, stations {p} and {q}, a kilobyte");
        let units = (first.len() + second.len()) as u32 / 1_000;
        agree &= Measure { name, units, work: &work }.print(PROJECT_COMPARE, compare_rust as Compare, span);
    }
    for n in [16, 8, 2] {
        let frames = recorded::record(n, RECORDED_ROUNDS);
        let times = 1024 / (n * n);
        let work = |function: StationRounds| (0..times).fold(0, |sum, _| recorded::mix(sum, function(black_box(&frames), n)));
        let name = format!("a station's round from C, N = {n}: write, {} hears, turn", n - 1);
        let units = (times * RECORDED_ROUNDS) as u32;
        agree &= Measure { name, units, work: &work }.print(PROJECT_STATION, recorded::rounds as StationRounds, span);
    }
    #[cfg(all(relay, relay_bench))]
    if let Some((state, _)) = play(&recorded::record(16, RECORDED_ROUNDS), 16) {
        for (judged, name) in [(0, "a station read and written, N = 16"), (1, "a station judged, read and written, N = 16")] {
            agree &= print_codec(name, relay_bench_codec, &state, judged, span);
        }
    }
    if agree { ExitCode::SUCCESS } else { ExitCode::FAILURE }
}
