//! Times the proved stack, plain Rust and zlib in one run, on the same input. A ratio below 1 means faster than the plain Rust.

mod plain;
mod proved;
mod scene;
mod zlib;

use std::hint::black_box;
use std::time::Instant;

use plain::{datasets, fcs, headers};
use scene::Dataset;
use trdp::{PdHeader, Refusal};

type FrameCheck = fn(&[u8]) -> u32;
type TakePd = fn(&[u8]) -> Result<PdHeader, u8>;
type ToHost = fn(&[u32], u32, &[u8], &mut [u8]) -> Result<usize, u8>;

const SAMPLES: usize = 801;
const SAMPLE_SECONDS: f64 = 0.000_5;

/// One way of doing the same work.
struct Contestant<'a> {
    name: &'static str,
    work: Box<dyn FnMut(usize) + 'a>,
}

/// `work` does its job so many times.
fn contestant<'a>(name: &'static str, mut once: impl FnMut() + 'a) -> Contestant<'a> {
    let work = Box::new(move |times| (0..times).for_each(|_| once()));
    Contestant { name, work }
}

fn seconds(contestant: &mut Contestant, times: usize) -> f64 {
    let start = Instant::now();
    (contestant.work)(times);
    start.elapsed().as_secs_f64()
}

/// Prints the nanoseconds of each contestant, and its ratio to the first one. Samples take turns, so that a change of the
/// machine's pace meets all; the best one counts. Answers the best times.
fn race(what: &str, contestants: &mut [Contestant]) -> Vec<f64> {
    let mut times = 1;
    while seconds(&mut contestants[0], times) < SAMPLE_SECONDS {
        times *= 2;
    }
    let mut best = vec![f64::INFINITY; contestants.len()];
    for _ in 0..SAMPLES {
        for (contestant, best) in contestants.iter_mut().zip(&mut best) {
            *best = best.min(seconds(contestant, times) / times as f64);
        }
    }
    for (contestant, seconds) in contestants.iter().zip(&best) {
        println!("{what:34} {:22} {:9.1} ns {:6.2}", contestant.name, seconds * 1e9, seconds / best[0]);
    }
    best
}

fn frame_checks() {
    let octets: Vec<u8> = (0..1472).map(|place| (place * 7) as u8).collect();
    for length in [36, 112, 1472] {
        let octets = &octets[..length];
        let functions: [(_, Option<FrameCheck>); 4] = [
            ("plain, one table", Some(fcs::frame_check)),
            ("plain, eight tables", Some(fcs::frame_check_by_eight)),
            ("zlib", zlib::CRC32),
            ("proved", Some(trdp::frame_check)),
        ];
        let mut contestants = Vec::new();
        for (name, function) in functions {
            let Some(function) = function else { continue };
            assert_eq!(function(octets), fcs::frame_check(octets), "{name}");
            contestants.push(contestant(name, move || {
                black_box(function(black_box(octets)));
            }));
        }
        let what = format!("frame check over {length} octets");
        let best = race(&what, &mut contestants);
        if let [_, _, zlib, proved] = best[..] {
            println!("{what:34} {:22} {:19.2}", "proved to zlib", proved / zlib);
        }
    }
}

fn pd_taken_apart() {
    let datagram = &scene::pd_datagram(100);
    let proved = |datagram: &[u8]| PdHeader::take(datagram).map_err(Refusal::number);
    let plain = |datagram: &[u8]| headers::take_pd(datagram, fcs::frame_check);
    let by_eight = |datagram: &[u8]| headers::take_pd(datagram, fcs::frame_check_by_eight);
    let functions: [(_, TakePd); 3] = [("plain", plain), ("plain, eight tables", by_eight), ("proved", proved)];
    let mut contestants = Vec::new();
    for (name, function) in functions {
        assert!(function(datagram).is_ok());
        assert_eq!(function(datagram), plain(datagram), "{name}");
        contestants.push(contestant(name, move || {
            black_box(function(black_box(datagram))).ok();
        }));
    }
    race("PD telegram taken apart", &mut contestants);
}

fn deliveries() {
    let mut plain = scene::Deliveries::new();
    let mut by_eight = scene::Deliveries::new();
    let mut proved = proved::Deliveries::new();
    assert_eq!(plain.deliver(fcs::frame_check), Ok(1));
    assert_eq!(by_eight.deliver(fcs::frame_check_by_eight), Ok(1));
    assert_eq!(proved.deliver(), Ok(1));
    assert_eq!(plain.taken(), by_eight.taken());
    assert_eq!(plain.taken(), proved.taken());
    let mut contestants = [
        contestant("plain", || {
            black_box(black_box(&mut plain).deliver(fcs::frame_check)).expect("each telegram is fresh");
        }),
        contestant("plain, eight tables", || {
            black_box(black_box(&mut by_eight).deliver(fcs::frame_check_by_eight)).expect("each telegram is fresh");
        }),
        contestant("proved", || {
            black_box(black_box(&mut proved).deliver()).expect("each telegram is fresh");
        }),
    ];
    race("1432 octets into one of 32 slots", &mut contestants);
}

fn requests() {
    let mut plain = scene::Requests::new();
    let mut by_eight = scene::Requests::new();
    let mut proved = proved::Requests::new();
    assert_eq!(plain.request(fcs::frame_check), Ok((scene::HEARING, 0)));
    assert_eq!(by_eight.request(fcs::frame_check_by_eight), Ok((scene::HEARING, 0)));
    assert_eq!(proved.request(), Ok((scene::HEARING, 0)));
    let mut contestants = [
        contestant("plain", || {
            black_box(black_box(&mut plain).request(fcs::frame_check)).expect("a session is free");
        }),
        contestant("plain, eight tables", || {
            black_box(black_box(&mut by_eight).request(fcs::frame_check_by_eight)).expect("a session is free");
        }),
        contestant("proved", || {
            black_box(black_box(&mut proved).request()).expect("a session is free");
        }),
    ];
    race("MD request, and the user's reply", &mut contestants);
}

fn dataset_walks() {
    let Dataset { run, id, wire } = &Dataset::new();
    let mut host = vec![0; wire.len()];
    datasets::to_host(run, *id, wire, &mut host).expect("the data fit");
    let proved = |run: &[u32], id, wire: &[u8], target: &mut [u8]| trdp::to_host(run, id, wire, target).map_err(Refusal::number);
    let functions: [(_, ToHost); 2] = [("plain", datasets::to_host), ("proved", proved)];
    let mut contestants = Vec::new();
    for (name, function) in functions {
        let mut target = vec![0; wire.len()];
        assert_eq!(function(run, *id, wire, &mut target), Ok(wire.len()), "{name}");
        assert_eq!(target, host, "{name}");
        contestants.push(contestant(name, move || {
            black_box(function(black_box(run), *id, wire, &mut target)).ok();
        }));
    }
    race(&format!("dataset of {} octets to host form", wire.len()), &mut contestants);
}

fn main() {
    assert_eq!(fcs::frame_check(b"123456789"), 0xCBF4_3926);
    frame_checks();
    pd_taken_apart();
    deliveries();
    requests();
    dataset_walks();
}
