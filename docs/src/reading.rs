//! What was written, read off the events alone: no stages, no pointer, no shift register.
//!
//! A stretch is the bits between two neighbouring Nulls or Waits. A device begins a cycle at the
//! Null or Wait that closes a stretch, if no cycle runs on the wire and the stretch is a sentence
//! of the writing grammar for that device, with the permissions it has then. The cycle ends at the
//! next Wait (which may be the very event that began it), at the next Cut, or not at all. The
//! stored fields at any moment are the loaded ones with the ended cycles applied in their order.
//!
//! For bus files and event files that are not refused.

/// What a cycle writes. A cell is its address and its byte, in the order they were sent.
#[derive(Clone, Debug, PartialEq, Eq)]
pub enum Written {
    Main(Vec<(u8, u8)>),
    User(Vec<(u8, u8)>),
    Lock,
    Zone(u8),
    Freeze,
}

/// How a cycle ended, and at which event.
#[derive(Clone, Copy, Debug, PartialEq, Eq)]
pub enum Ending {
    Wait(usize),
    Cut(usize, u64),
    Running,
}

#[derive(Clone, Debug, PartialEq, Eq)]
pub struct Cycle {
    pub begin: usize,
    pub written: Written,
    pub ending: Ending,
}

pub struct Reading {
    /// For each record of the bus file its cycles, in their order.
    pub cycles: Vec<Vec<Cycle>>,
    /// The bus file at the end.
    pub bus: Vec<u8>,
}

#[derive(Clone, Copy, PartialEq, Eq)]
enum Event {
    Bit(bool),
    Null,
    Wait,
    Reset,
    Cut(u64),
}

pub fn read(bus: &[u8], tape: &[u8]) -> Reading {
    let events = events_of(tape);
    let loaded: Vec<&[u8]> = bus.chunks(168).collect();
    let mut cycles: Vec<Vec<Cycle>> = vec![Vec::new(); loaded.len()];
    for (now, event) in events.iter().enumerate() {
        if let Some(running) = cycles
            .iter_mut()
            .filter_map(|list| list.last_mut())
            .find(|cycle| cycle.ending == Ending::Running)
        {
            match *event {
                Event::Wait => running.ending = Ending::Wait(now),
                Event::Cut(mask) => running.ending = Ending::Cut(now, mask),
                Event::Bit(_) | Event::Null | Event::Reset => {}
            }
            continue;
        }
        let ending = match *event {
            Event::Null => Ending::Running,
            Event::Wait => Ending::Wait(now),
            Event::Bit(_) | Event::Reset | Event::Cut(_) => continue,
        };
        let Some(bytes) = stretch(&events[..now]).and_then(bytes_of) else {
            continue;
        };
        for (record, list) in loaded.iter().zip(&mut cycles) {
            if let Some(written) = sentence(&folded(record, list), &bytes) {
                list.push(Cycle {
                    begin: now,
                    written,
                    ending,
                });
            }
        }
    }
    let bus = loaded
        .iter()
        .zip(&cycles)
        .flat_map(|(record, list)| folded(record, list))
        .collect();
    Reading { cycles, bus }
}

/// The events of an event file.
fn events_of(tape: &[u8]) -> Vec<Event> {
    let mut events = Vec::new();
    let mut rest = tape;
    while rest.len() >= 3 {
        let length = if rest[2] == 5 { 11 } else { 3 };
        events.push(match rest[2] {
            0 => Event::Bit(false),
            1 => Event::Bit(true),
            2 => Event::Null,
            3 => Event::Wait,
            4 => Event::Reset,
            _ => Event::Cut((0..8).map(|k| (rest[3 + k] as u64) << (8 * k)).sum()),
        });
        rest = &rest[length..];
    }
    events
}

/// The bits at the end of `past`, if what stands before them is a Null or a Wait.
fn stretch(past: &[Event]) -> Option<Vec<bool>> {
    let opening = past.iter().rposition(|event| !matches!(event, Event::Bit(_)))?;
    if !matches!(past[opening], Event::Null | Event::Wait) {
        return None;
    }
    Some(
        past[opening + 1..]
            .iter()
            .map(|event| *event == Event::Bit(true))
            .collect(),
    )
}

/// The bytes of a stretch, each followed by one frame whose bit may be either.
fn bytes_of(bits: Vec<bool>) -> Option<Vec<u8>> {
    if bits.len() % 9 != 0 {
        return None;
    }
    let value = |bits: &[bool]| bits[..8].iter().fold(0, |byte, &bit| 2 * byte + bit as u8);
    Some(bits.chunks(9).map(value).collect())
}

/// The writing grammar for the device stored in `record`.
fn sentence(record: &[u8], bytes: &[u8]) -> Option<Written> {
    let [device_address, address, data @ ..] = bytes else {
        return None;
    };
    let (slave, flags) = (record[3], record[7]);
    let rom = |zone: u8| flags & (1 << zone) != 0;
    let (frozen, locked) = (flags & 0x10 != 0, flags & 0x20 != 0);
    if device_address % 16 != 2 * slave || data.is_empty() {
        return None;
    }
    match (device_address / 16, data) {
        (0xA, data) => {
            let first = address % 128;
            (!rom(first / 32)).then(|| Written::Main(cells(first, data)))
        }
        (0xB, data) => {
            let first = address % 32;
            (!locked && first >= 16).then(|| Written::User(cells(first, data)))
        }
        (0x2, [_]) => (!locked && address / 16 == 6).then_some(Written::Lock),
        (0x7, [0xFF]) if !frozen => match address % 16 {
            1 => Some(Written::Zone(0)),
            2 => Some(Written::Zone(1)),
            4 => Some(Written::Zone(2)),
            8 => Some(Written::Zone(3)),
            _ => None,
        },
        (0x1, [0xAA]) => (!frozen && *address == 0x55).then_some(Written::Freeze),
        _ => None,
    }
}

/// Where each data byte goes: round and round inside the page of the first.
fn cells(first: u8, data: &[u8]) -> Vec<(u8, u8)> {
    let page = first / 8 * 8;
    data.iter()
        .enumerate()
        .map(|(k, &byte)| (page + ((first % 8) as usize + k) as u8 % 8, byte))
        .collect()
}

/// The stored fields of a device after its cycles.
fn folded(loaded: &[u8], cycles: &[Cycle]) -> Vec<u8> {
    let mut record = loaded.to_vec();
    for cycle in cycles {
        match cycle.ending {
            Ending::Wait(_) => apply(&mut record, &cycle.written, &[0xFF; 8]),
            Ending::Cut(_, mask) => apply(&mut record, &cycle.written, &mask.to_le_bytes()),
            Ending::Running => {}
        }
    }
    record
}

fn apply(record: &mut [u8], written: &Written, mask: &[u8; 8]) {
    match written {
        Written::Main(cells) => mix(&mut record[8..136], cells, mask),
        Written::User(cells) => mix(&mut record[136..168], cells, mask),
        Written::Lock => record[7] |= (mask[0] & 1) << 5,
        Written::Zone(zone) => record[7] |= (mask[0] & 1) << zone,
        Written::Freeze => record[7] |= (mask[0] & 1) << 4,
    }
}

/// Each cell takes its last byte's bits where the mask has ones.
fn mix(region: &mut [u8], cells: &[(u8, u8)], mask: &[u8; 8]) {
    for &(address, byte) in cells {
        let ones = mask[address as usize % 8];
        let cell = &mut region[address as usize];
        *cell = (*cell & !ones) | (byte & ones);
    }
}
