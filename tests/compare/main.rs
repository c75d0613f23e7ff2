//! Holds the proved program, through its C face, against the second program and the reading of
//! the events, on random traces of mixed quality.
//!
//! Arguments: the number of traces, a seed, and the number of the only trace to run; each may be
//! left out.

#[path = "../../docs/src/reading.rs"]
mod reading;
#[path = "../../docs/src/second.rs"]
mod second;

mod face;
mod make;

use make::{Event, Random};
use reading::{Ending, Written};

const TRACES: u64 = 800_000;
const GUARD: usize = 16;
const TAPE_LIMIT: usize = 49_152;

/// One call: the files, the room, and the byte that the room is filled with.
#[derive(Clone)]
struct Case {
    bus: Vec<u8>,
    tape: Vec<u8>,
    room: usize,
    fill: u8,
    views: [(u8, u8); 4],
}

/// What the traces reached, and how often.
#[derive(Default)]
struct Reached {
    events: usize,
    busy: usize,
    refusals: [usize; 12],
    views: [usize; 2],
    cycles: [[usize; 4]; 5],
    /// Device addresses answered and not, by opcode and R/W.
    addresses: [[[usize; 2]; 2]; 16],
    full: usize,
}

fn main() {
    let arguments: Vec<u64> = std::env::args()
        .skip(1)
        .map(|word| {
            word.parse()
                .unwrap_or_else(|_| fail(&format!("compare: not a number: {word}")))
        })
        .collect();
    let traces = arguments.first().copied().unwrap_or(TRACES);
    let seed = arguments.get(1).copied().unwrap_or_else(seed_of_the_day);
    let only = arguments.get(2).copied();
    println!("compare: seed {seed}");
    let mut reached = Reached::default();
    for trace in only.map_or(0..traces, |one| one..one + 1) {
        let case = case_of(seed, trace);
        if let Err(what) = hold(&case, &mut reached) {
            println!("compare: seed {seed} trace {trace}: {what}");
            let (small, what) = shrunk(case, what);
            tell(&small, &what);
            std::process::exit(1);
        }
    }
    if only.is_some() {
        println!("compare: trace {} agrees", only.unwrap_or(0));
        return;
    }
    println!("compare: {traces} traces, 0 differences");
    summary(&reached);
}

fn fail(what: &str) -> ! {
    println!("{what}");
    std::process::exit(1);
}

fn seed_of_the_day() -> u64 {
    let since = std::time::SystemTime::now().duration_since(std::time::UNIX_EPOCH);
    since.map_or(1, |time| time.as_nanos() as u64 % 1_000_000_000_000)
}

// ---- Cases ----

fn case_of(seed: u64, trace: u64) -> Case {
    let mut random = Random::new(Random::new(seed ^ trace.wrapping_mul(0xD1B5_4A32_D192_ED03)).word());
    let random = &mut random;
    let devices = if random.chance(30) { 1 } else { random.within(0, 8) };
    let bus = make::good_bus(random, devices);
    let mut events = make::mixed(random, &bus);
    if random.below(500) == 0 {
        full(random, &bus, &mut events);
    }
    let mut tape = make::tape_of(&events);
    while tape.len() > TAPE_LIMIT && random.chance(90) {
        events.truncate(events.len() / 2);
        tape = make::tape_of(&events);
    }
    let room = match random.below(10) {
        0..=4 => events.len(),
        5..=8 => events.len() + random.within(1, 40),
        _ => events.len() + 1,
    };
    let views = core::array::from_fn(|_| view(random, &bus));
    let mut case = Case {
        bus,
        tape,
        room,
        fill: random.byte(),
        views,
    };
    if random.chance(12) {
        for _ in 0..random.pick(&[1, 1, 1, 2, 2, 3]) {
            damage(random, &events, &mut case);
        }
    }
    case
}

/// Fills the event file to its limit exactly.
fn full(random: &mut Random, bus: &[u8], events: &mut Vec<Event>) {
    let mut maker = make::Maker::new(random, bus, 10);
    maker.events = std::mem::take(events);
    let mut length = make::tape_of(&maker.events).len();
    loop {
        let from = maker.events.len();
        maker.command();
        let more = make::tape_of(&maker.events[from..]).len();
        if length + more + 22 > TAPE_LIMIT {
            maker.events.truncate(from);
            break;
        }
        length += more;
    }
    // A Cut has eleven bytes, any other event three.
    while (TAPE_LIMIT - length) % 3 != 0 {
        maker.events.push(make::cut(u64::MAX));
        length += 11;
    }
    while length < TAPE_LIMIT {
        let master = maker.random.below(2) as u8;
        maker.events.push(make::bit(master));
        length += 3;
    }
    *events = maker.events;
}

fn view(random: &mut Random, bus: &[u8]) -> (u8, u8) {
    let slaves: Vec<u8> = bus.chunks(168).map(|record| record[3]).collect();
    let slave = match random.below(10) {
        0 => random.byte(),
        1 => random.within(0, 8) as u8,
        _ if slaves.is_empty() => random.below(8) as u8,
        _ => random.pick(&slaves),
    };
    let zone = match random.below(12) {
        0 => 4,
        1 => random.byte(),
        _ => random.below(4) as u8,
    };
    (slave, zone)
}

/// Damages a good call so that it is refused (mostly), each refusal in its turn.
fn damage(random: &mut Random, events: &[Event], case: &mut Case) {
    let records = case.bus.len() / 168;
    let record = 168 * random.below(records.max(1));
    let place = random.below(events.len().max(1));
    let at = make::tape_of(&events[..place.min(events.len())]).len();
    match random.below(16) {
        0 => match random.below(6) {
            0 => case.bus.push(random.byte()),
            1 => {
                case.bus.pop();
            }
            2 => {
                while case.bus.len() <= 1344 {
                    let more = make::good_bus(random, 1);
                    case.bus.extend_from_slice(&more);
                }
            }
            3 => case.bus.resize(1345, 0x53),
            4 => {
                let length = random.below(case.bus.len() + 1);
                case.bus.truncate(length);
            }
            _ => {
                let length = random.below(3000);
                case.bus = (0..length).map(|_| random.byte()).collect();
            }
        },
        1 => set(&mut case.bus, record + random.below(2), |byte| {
            byte ^ 1 << random.below(8)
        }),
        2 => set(&mut case.bus, record + 2, |_| {
            random.pick(&[0x00, 0x02, 0x10, 0x12, 0x21, 0x81, 0x91, 0xFF])
        }),
        3 => set(&mut case.bus, record + 3, |byte| {
            if random.chance(50) {
                8
            } else {
                byte | 0x08 << random.below(5)
            }
        }),
        4 => {
            // Not above the one before: the same, or anything lower.
            if record > 0 && record < case.bus.len() {
                let before = case.bus[record - 168 + 3];
                case.bus[record + 3] = if random.chance(50) {
                    before
                } else {
                    random.below(before as usize + 1) as u8
                };
            }
        }
        5 => set(&mut case.bus, record + 7, |byte| {
            byte | random.pick(&[0x40, 0x80, 0xC0])
        }),
        6 => set(&mut case.bus, record + 144 + random.below(8), |byte| {
            byte ^ 1 << random.below(8)
        }),
        7 => {
            let length = case.tape.len().saturating_sub(random.within(1, 10));
            case.tape.truncate(length);
        }
        8 => {
            case.tape.extend_from_slice(&[0x45, 0x56, 0x05]);
            for _ in 0..random.below(8) {
                case.tape.push(random.byte());
            }
        }
        9 => set(&mut case.tape, at + random.below(2), |byte| byte ^ 1 << random.below(8)),
        10 => set(&mut case.tape, at + 2, |_| {
            if random.chance(60) {
                6
            } else {
                random.byte() | 0x40
            }
        }),
        11 => {
            // Over the limit by one byte, by an event, by much; or just at it.
            let over = random.pick(&[0, 0, 1, 2, 3, 3, 300, 9000]);
            while case.tape.len() < TAPE_LIMIT + over {
                let master = random.below(2) as u8;
                case.tape.extend_from_slice(&[0x45, 0x56, master]);
            }
            case.tape.truncate(TAPE_LIMIT + over);
            case.room = case.room.max(TAPE_LIMIT / 3);
        }
        12 | 13 => case.room = case.room.saturating_sub(random.within(1, 41)),
        14 => case.room = events.len().saturating_sub(1),
        _ => {
            let length = random.below(40);
            case.tape = (0..length)
                .map(|_| random.pick(&[0x45, 0x56, 0x05, 0x02, 0x00]))
                .collect();
        }
    }
}

fn set(bytes: &mut [u8], at: usize, to: impl FnOnce(u8) -> u8) {
    if let Some(byte) = bytes.get_mut(at) {
        *byte = to(*byte);
    }
}

// ---- Holding them against each other ----

/// Bytes with a guard on either side.
struct Guarded(Vec<u8>);

impl Guarded {
    fn of(bytes: &[u8]) -> Self {
        let mut all = vec![0x5A; bytes.len() + 2 * GUARD];
        all[GUARD..GUARD + bytes.len()].copy_from_slice(bytes);
        Guarded(all)
    }

    fn part(&mut self) -> &mut [u8] {
        let end = self.0.len() - GUARD;
        &mut self.0[GUARD..end]
    }

    fn guards_stand(&self) -> bool {
        let (front, rest) = self.0.split_at(GUARD);
        let back = &rest[rest.len() - GUARD..];
        front.iter().chain(back).all(|&byte| byte == 0x5A)
    }
}

fn hold(case: &Case, reached: &mut Reached) -> Result<(), String> {
    let room = vec![case.fill; case.room];

    let mut bus = case.bus.clone();
    let mut answers = room.clone();
    let outcome = second::run(&mut bus, &case.tape, &mut answers);

    let mut proved_bus = Guarded::of(&case.bus);
    let mut proved_tape = Guarded::of(&case.tape);
    let mut proved_answers = Guarded::of(&room);
    let ran = face::run(proved_bus.part(), proved_tape.part(), proved_answers.part());

    if ran.number != outcome.number {
        return Err(format!("number {} proved, {} second", ran.number, outcome.number));
    }
    if (ran.count, ran.refused) != (outcome.count, outcome.refused) {
        return Err(format!(
            "counts {} {} proved, {} {} second",
            ran.count, ran.refused, outcome.count, outcome.refused
        ));
    }
    if let Some(at) = unlike(proved_answers.part(), &answers) {
        return Err(format!(
            "answer {at}: {:02x} proved, {:02x} second",
            proved_answers.part()[at],
            answers[at]
        ));
    }
    if let Some(at) = unlike(proved_bus.part(), &bus) {
        return Err(format!(
            "bus byte {at}: {:02x} proved, {:02x} second",
            proved_bus.part()[at],
            bus[at]
        ));
    }
    if !proved_bus.guards_stand() || !proved_tape.guards_stand() || !proved_answers.guards_stand() {
        return Err("a byte outside the lent ones was changed".to_string());
    }
    if *proved_tape.part() != case.tape[..] {
        return Err("the event file was changed".to_string());
    }

    views(case, &case.bus, reached)?;
    if outcome.number == 0 {
        done(case, outcome, &bus, &answers, reached)?;
        views(case, &bus, reached)?;
    } else {
        reached.refusals[outcome.number as usize] += 1;
        if bus != case.bus || answers != room || outcome.count != 0 || outcome.refused != 0 {
            return Err("a refused call left something changed".to_string());
        }
    }
    Ok(())
}

/// What a run that is not refused must leave, by the reading and by counting.
fn done(
    case: &Case,
    outcome: second::Outcome,
    bus: &[u8],
    answers: &[u8],
    reached: &mut Reached,
) -> Result<(), String> {
    let events = make::events_of(&case.tape);
    if outcome.count != events.len() {
        return Err(format!("{} events counted of {}", outcome.count, events.len()));
    }
    let (answered, rest) = answers.split_at(outcome.count);
    if rest.iter().any(|&byte| byte != case.fill) {
        return Err("the rest of the room was changed".to_string());
    }
    if outcome.refused != answered.iter().filter(|&&byte| byte == 0x80).count() {
        return Err("the count of 80h answers".to_string());
    }
    let read = reading::read(&case.bus, &case.tape);
    if let Some(at) = unlike(bus, &read.bus) {
        return Err(format!(
            "bus byte {at}: {:02x} second, {:02x} read off the events",
            bus[at], read.bus[at]
        ));
    }
    // A frame, a reset: 80h exactly while a cycle of the reading runs.
    let mut cycles: Vec<_> = read.cycles.iter().flatten().collect();
    cycles.sort_by_key(|cycle| cycle.begin);
    let mut busy = vec![false; events.len()];
    for cycle in &cycles {
        let end = match cycle.ending {
            Ending::Wait(end) | Ending::Cut(end, _) => end,
            Ending::Running => events.len(),
        };
        if cycle.begin + 1 < end {
            busy[cycle.begin + 1..end].fill(true);
        }
    }
    for (at, event) in events.iter().enumerate() {
        let refuses = busy[at] && matches!(event.kind, 0 | 1 | 4);
        if refuses != (answered[at] == 0x80) {
            return Err(format!(
                "answer {at}: {:02x}, but the reading has a cycle running: {}",
                answered[at], busy[at]
            ));
        }
    }

    reached.refusals[0] += 1;
    reached.events += outcome.count;
    reached.busy += outcome.refused;
    reached.full += (case.tape.len() == TAPE_LIMIT) as usize;
    for cycle in cycles {
        let kind = match cycle.written {
            Written::Main(_) => 0,
            Written::User(_) => 1,
            Written::Lock => 2,
            Written::Zone(_) => 3,
            Written::Freeze => 4,
        };
        let ending = match cycle.ending {
            Ending::Wait(end) if end == cycle.begin => 0,
            Ending::Wait(_) => 1,
            Ending::Cut(..) => 2,
            Ending::Running => 3,
        };
        reached.cycles[kind][ending] += 1;
    }
    for at in 0..events.len().saturating_sub(9) {
        let frames = &events[at + 1..at + 10];
        if (events[at].kind == 2 || events[at].kind == 3)
            && frames.iter().all(|frame| frame.kind < 2)
            && frames[8].kind == 1
        {
            let byte = frames[..8].iter().fold(0u8, |byte, frame| byte << 1 | frame.kind);
            let silent = answered[at + 9] != 0;
            reached.addresses[byte as usize >> 4][byte as usize & 1][silent as usize] += 1;
        }
    }
    Ok(())
}

fn views(case: &Case, bus: &[u8], reached: &mut Reached) -> Result<(), String> {
    for &(slave, zone) in &case.views {
        let (number, from) = second::zone(bus, slave, zone);
        let proved = face::zone(bus, slave, zone);
        if proved != (number, from) {
            return Err(format!(
                "view of slave {slave} zone {zone}: {proved:?} proved, {:?} second",
                (number, from)
            ));
        }
        if number == 0 {
            let record = from / 168;
            if bus[record * 168 + 3] != slave || from != record * 168 + 8 + 32 * zone as usize {
                return Err(format!("view of slave {slave} zone {zone} at {from}"));
            }
        } else if from != 0 {
            return Err("a refused view shows a place".to_string());
        }
        match number {
            0 => reached.views[0] += 1,
            14 => reached.views[1] += 1,
            _ => {}
        }
    }
    Ok(())
}

fn unlike(one: &[u8], other: &[u8]) -> Option<usize> {
    if one == other {
        return None;
    }
    let at = one.iter().zip(other).position(|(a, b)| a != b);
    Some(at.unwrap_or(one.len().min(other.len()).saturating_sub(1)))
}

// ---- A difference told shortly ----

/// Takes events and devices away for as long as a difference is left.
fn shrunk(mut case: Case, mut what: String) -> (Case, String) {
    let mut scratch = Reached::default();
    let mut still = |smaller: Case, case: &mut Case, what: &mut String| match hold(&smaller, &mut scratch) {
        Err(left) => {
            *case = smaller;
            *what = left;
            true
        }
        Ok(()) => false,
    };
    if case.bus.len() % 168 == 0 {
        let mut at = 0;
        while at < case.bus.len() {
            let mut smaller = case.clone();
            smaller.bus.drain(at..at + 168);
            if !still(smaller, &mut case, &mut what) {
                at += 168;
            }
        }
    }
    let mut copy = case.bus.clone();
    if second::run(&mut copy, &case.tape, &mut vec![0; case.room]).number == 0 {
        let mut events = make::events_of(&case.tape);
        let mut size = (events.len() / 2).max(1);
        loop {
            let mut at = 0;
            while at < events.len() {
                let mut fewer = events.clone();
                fewer.drain(at..(at + size).min(events.len()));
                let smaller = Case {
                    tape: make::tape_of(&fewer),
                    room: fewer.len(),
                    ..case.clone()
                };
                if still(smaller, &mut case, &mut what) {
                    events = fewer;
                } else {
                    at += size;
                }
            }
            if size == 1 {
                break;
            }
            size /= 2;
        }
    }
    (case, what)
}

fn tell(case: &Case, what: &str) {
    println!("smallest found: {what}");
    println!(
        "bus file of {} bytes, event file of {} bytes, room {}",
        case.bus.len(),
        case.tape.len(),
        case.room
    );
    for record in case.bus.chunks_exact(168).take(8) {
        println!(
            "device: part {:02x} slave {} flags {:02x}",
            record[2], record[3], record[7]
        );
    }
    let mut copy = case.bus.clone();
    let mut answers = vec![0; case.room];
    let outcome = second::run(&mut copy, &case.tape, &mut answers);
    if outcome.number == 0 {
        let events = make::events_of(&case.tape);
        let shown = events.len().min(2000);
        println!("events: {}", make::letters(&events[..shown]));
    } else {
        println!("refusal {} by the second program", outcome.number);
    }
}

// ---- The end ----

fn summary(reached: &Reached) {
    println!(
        "events {}, answered 80h {}, event files at the limit {}",
        reached.events, reached.busy, reached.full
    );
    let refusals: Vec<String> = (0..12)
        .map(|number| format!("{number}: {}", reached.refusals[number]))
        .collect();
    println!("numbers  {}", refusals.join("  "));
    println!("views    shown: {}  14: {}", reached.views[0], reached.views[1]);
    println!("cycles      wait at once  wait later        cut    running");
    let kinds = ["main", "user", "lock", "zone", "freeze"];
    for (kind, row) in kinds.iter().zip(&reached.cycles) {
        println!("  {kind:8} {:>12} {:>11} {:>10} {:>10}", row[0], row[1], row[2], row[3]);
    }
    println!("device addresses   R/W 0: answered, not     R/W 1: answered, not");
    for opcode in [0xA, 0xB, 0x2, 0x7, 0x1, 0xC, 0xD, 0xE] {
        let [write, read] = reached.addresses[opcode];
        println!(
            "  {opcode:X}h              {:>10} {:>10} {:>13} {:>10}",
            write[0], write[1], read[0], read[1]
        );
    }
    let mut missing = Vec::new();
    for number in 0..12 {
        if reached.refusals[number] == 0 {
            missing.push(format!("number {number}"));
        }
    }
    for (kind, row) in kinds.iter().zip(&reached.cycles) {
        for (ending, &times) in ["Wait at once", "later Wait", "Cut", "running"].iter().zip(row) {
            if times == 0 {
                missing.push(format!("{kind} cycle, {ending}"));
            }
        }
    }
    for opcode in [0xA, 0xB, 0x2, 0x7, 0x1, 0xC, 0xD, 0xE] {
        for reads in 0..2 {
            if reached.addresses[opcode][reads][0] == 0 && (opcode, reads) != (0xC, 0) {
                missing.push(format!("{opcode:X}h answered with R/W {reads}"));
            }
        }
    }
    if reached.views.contains(&0) {
        missing.push("a view shown or refused with 14".to_string());
    }
    if reached.full == 0 {
        missing.push("an event file at the limit".to_string());
    }
    if !missing.is_empty() {
        fail(&format!("compare: never reached: {}", missing.join("; ")));
    }
}
