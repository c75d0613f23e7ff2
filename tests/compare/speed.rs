//! Times the proved program, through its C face, against the second program: the same traces of
//! 16,000 events, turn by turn in one process, each until a second and more has passed.
//!
//! Before each run the bus file is copied afresh, for both alike; the room is not cleared. The
//! figure of a program is its best batch.

#[allow(dead_code)]
#[path = "../../docs/src/second.rs"]
mod second;

#[allow(dead_code)]
mod face;
mod make;

use make::{Event, Random};
use std::hint::black_box;
use std::time::{Duration, Instant};

const EVENTS: usize = 16_000;
const BATCH: Duration = Duration::from_millis(10);
const ENOUGH: Duration = Duration::from_millis(1_200);
const LEAST_BATCHES: usize = 20;

fn main() {
    let seed = std::env::args()
        .nth(1)
        .map_or(1, |word| word.parse().expect("speed: the seed is a number"));
    let mut random = Random::new(seed);
    println!("speed: seed {seed}, {EVENTS} events, best batch of each, ns per event");
    println!(
        "{:<22} {:>7} {:>9} {:>9} {:>7}",
        "trace", "devices", "proved", "second", "ratio"
    );
    let mut worst: f64 = 0.0;
    for devices in [1, 8] {
        for (name, make) in [
            ("command mix", mix as Making),
            ("page writes", writes),
            ("reads", reads),
        ] {
            let bus = permissive(make::good_bus(&mut random, devices));
            let events = exactly(&mut random, &bus, make);
            let tape = make::tape_of(&events);
            let (proved, second) = time(&bus, &tape, events.len());
            let ratio = proved / second;
            worst = worst.max(ratio);
            println!("{name:<22} {devices:>7} {proved:>9.3} {second:>9.3} {ratio:>7.2}");
        }
    }
    println!("speed: worst ratio {worst:.2}");
    growth(&mut random);
}

/// The first events of one trace, more and more of them: where time grows in proportion to the
/// events the figures are alike.
fn growth(random: &mut Random) {
    let bus = permissive(make::good_bus(random, 8));
    let events = exactly(random, &bus, mix);
    for count in [EVENTS / 8, EVENTS / 4, EVENTS / 2, EVENTS] {
        let (proved, second) = time(&bus, &make::tape_of(&events[..count]), count);
        println!("command mix, {count:>6} events, 8 devices: {proved:.3} and {second:.3} ns per event");
    }
}

/// No zone ROM, nothing frozen or locked: every write arrives.
fn permissive(mut bus: Vec<u8>) -> Vec<u8> {
    for record in bus.chunks_mut(168) {
        record[7] = 0;
    }
    bus
}

type Making = fn(&mut make::Maker);

fn mix(maker: &mut make::Maker) {
    maker.command();
}

fn writes(maker: &mut make::Maker) {
    let count = maker.random.within(1, 8);
    maker.write_main(count);
    maker.events.push(make::WAIT);
}

fn reads(maker: &mut make::Maker) {
    let count = maker.random.within(1, 64);
    let random_read = maker.random.chance(50);
    maker.read_main(count, random_read);
}

fn exactly(random: &mut Random, bus: &[u8], make: Making) -> Vec<Event> {
    let mut maker = make::Maker::new(random, bus, 5);
    while maker.events.len() < EVENTS {
        make(&mut maker);
    }
    maker.events.truncate(EVENTS);
    assert!(
        make::tape_of(&maker.events).len() <= 49_152,
        "speed: too many Cuts for one event file"
    );
    maker.events
}

/// ns per event of the proved program and of the second.
fn time(bus: &[u8], tape: &[u8], count: usize) -> (f64, f64) {
    let mut work = bus.to_vec();
    let mut answers = vec![0; count];
    let mut other = vec![0; count];
    let first = face::run(&mut work, tape, &mut answers);
    let after = work.clone();
    work.copy_from_slice(bus);
    let outcome = second::run(&mut work, tape, &mut other);
    assert!(
        first.number == 0 && outcome.number == 0 && first.count == count,
        "speed: the trace is refused"
    );
    assert!(answers == other && after == work, "speed: the programs differ");

    let proved = |work: &mut [u8], answers: &mut [u8]| {
        work.copy_from_slice(bus);
        black_box(face::run(black_box(work), black_box(tape), black_box(answers)));
    };
    let second = |work: &mut [u8], answers: &mut [u8]| {
        work.copy_from_slice(bus);
        black_box(second::run(black_box(work), black_box(tape), black_box(answers)));
    };
    let proved_times = repeats(|| proved(&mut work, &mut answers));
    let second_times = repeats(|| second(&mut work, &mut answers));
    let mut best = (f64::MAX, f64::MAX);
    let mut spent = (Duration::ZERO, Duration::ZERO);
    let mut batches = 0;
    while spent.0 < ENOUGH || spent.1 < ENOUGH || batches < LEAST_BATCHES {
        let one = batch(proved_times, || proved(&mut work, &mut answers));
        let two = batch(second_times, || second(&mut work, &mut answers));
        best.0 = best.0.min(one.as_nanos() as f64 / (proved_times * count) as f64);
        best.1 = best.1.min(two.as_nanos() as f64 / (second_times * count) as f64);
        spent.0 += one;
        spent.1 += two;
        batches += 1;
    }
    best
}

/// How many runs fill a batch.
fn repeats(mut run: impl FnMut()) -> usize {
    let mut times = 1;
    loop {
        let spent = batch(times, &mut run);
        if spent >= BATCH / 4 {
            return (times as u128 * BATCH.as_nanos() / spent.as_nanos().max(1)).max(1) as usize;
        }
        times *= 2;
    }
}

fn batch(times: usize, mut run: impl FnMut()) -> Duration {
    let start = Instant::now();
    for _ in 0..times {
        run();
    }
    start.elapsed()
}
