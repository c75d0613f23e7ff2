//! The second program: the same rules in ordinary Rust, written apart from the proved one.
//!
//! It keeps no stage for each device. After a Null all devices hear the same device address, and
//! since slave addresses differ at most one of them answers it and the others fall silent until
//! the next Null; so one shift register and one listener serve the whole wire. What a byte is for
//! is a function (`Wire::hear`) that is called with the whole byte at its ninth frame, says whether
//! the byte is answered and names the function for the byte after it.
//!
//! A page under way is a 64-bit word, the cell at address mod 8 in byte (address mod 8), as the mask
//! of a Cut counts its bytes; a cycle that ends is one masked store into the bus file, which is
//! held in place and never copied.

const RECORD: usize = 168;
const BUS_LIMIT: usize = 8 * RECORD;
const TAPE_LIMIT: usize = 49_152;

const BUS_MARK: [u8; 2] = [0x53, 0x57];
const EVENT_MARK: [u8; 2] = [0x45, 0x56];

// Offsets in a record.
const PART: usize = 2;
const SLAVE: usize = 3;
const ID: usize = 4;
const FLAGS: usize = 7;
const MAIN: usize = 8;
const SECURITY: usize = 136;
const RESERVED: core::ops::Range<usize> = 144..152;

// Bits of the flags byte above the four ROM bits.
const FROZEN: u8 = 1 << 4;
const LOCKED: u8 = 1 << 5;

/// What a run returns: the number of the refusal (0: done), the events, the 80h answers.
#[derive(Clone, Copy, Debug, PartialEq, Eq)]
pub struct Outcome {
    pub number: u32,
    pub count: usize,
    pub refused: usize,
}

/// Runs the events over the bus file: one answer byte for each event, the rest of the room left,
/// the stored fields saved in place. A refusal changes nothing.
pub fn run(bus: &mut [u8], events: &[u8], answers: &mut [u8]) -> Outcome {
    match check(bus, events, answers.len()) {
        Err(number) => Outcome {
            number,
            count: 0,
            refused: 0,
        },
        Ok(count) => {
            let refused = Wire::new(bus).play(events, &mut answers[..count]);
            Outcome {
                number: 0,
                count,
                refused,
            }
        }
    }
}

/// The zone view: its number and, if that is 0, where its 32 bytes begin in the bus file.
pub fn zone(bus: &[u8], slave: u8, zone: u8) -> (u32, usize) {
    if let Err(number) = check_bus(bus) {
        return (number, 0);
    }
    let record = bus.chunks_exact(RECORD).position(|record| record[SLAVE] == slave);
    match record {
        Some(place) if zone <= 3 => (0, place * RECORD + MAIN + 32 * zone as usize),
        _ => (14, 0),
    }
}

// ---- Refusals ----

fn check(bus: &[u8], events: &[u8], room: usize) -> Result<usize, u32> {
    check_bus(bus)?;
    let count = check_events(events)?;
    if room < count {
        return Err(11);
    }
    Ok(count)
}

fn check_bus(bus: &[u8]) -> Result<(), u32> {
    if bus.len() > BUS_LIMIT || bus.len() % RECORD != 0 {
        return Err(1);
    }
    let mut lowest = 0;
    for record in bus.chunks_exact(RECORD) {
        if record[..2] != BUS_MARK {
            return Err(2);
        }
        if record[PART] != 0x01 && record[PART] != 0x11 {
            return Err(3);
        }
        if record[SLAVE] > 7 {
            return Err(4);
        }
        if record[SLAVE] < lowest {
            return Err(5);
        }
        if record[FLAGS] & 0xC0 != 0 {
            return Err(6);
        }
        if record[RESERVED].iter().any(|&byte| byte != 0xFF) {
            return Err(7);
        }
        lowest = record[SLAVE] + 1;
    }
    Ok(())
}

/// The number of events in a good event file.
fn check_events(events: &[u8]) -> Result<usize, u32> {
    if events.len() > TAPE_LIMIT {
        return Err(8);
    }
    let mut rest = events;
    let mut count = 0;
    while !rest.is_empty() {
        let [mark0, mark1, kind, tail @ ..] = rest else {
            return Err(8);
        };
        if [*mark0, *mark1] != EVENT_MARK {
            return Err(9);
        }
        if *kind > 5 {
            return Err(10);
        }
        rest = tail;
        if *kind == 5 {
            rest = rest.get(8..).ok_or(8u32)?;
        }
        count += 1;
    }
    Ok(count)
}

// ---- The wire ----

/// What a device loses at a Reset or Cut.
#[derive(Clone, Copy)]
struct Volatile {
    pointer: u8,
    standard_speed: bool,
    selector: Option<u8>,
}

const AFRESH: Volatile = Volatile {
    pointer: 0,
    standard_speed: false,
    selector: None,
};

/// What the next frame is to the devices.
#[derive(Clone, Copy, PartialEq, Eq)]
enum Line {
    /// Nobody listens until a Null or Wait.
    Deaf,
    /// A byte is taken in.
    Hear,
    /// The device spoken to puts a byte out.
    Send,
    /// A cycle runs.
    Busy,
}

/// Where the bytes that are put out come from.
#[derive(Clone, Copy)]
enum Source {
    /// The cells of `region`, at the pointer.
    Cells,
    /// The manufacturer ID; this many of its bytes have begun.
    Id(u8),
    /// The state of a zone, over and over.
    Zone(u8),
}

type Hear<'a> = fn(&mut Wire<'a>, u8) -> bool;

struct Wire<'a> {
    bus: &'a mut [u8],
    /// For each slave address, where its record begins.
    records: [Option<u16>; 8],
    volatile: [Volatile; 8],
    line: Line,
    /// Hearing: a 1 and behind it the bits so far, so 100h or more when the ninth frame is due.
    /// Sending: the bits to come, from bit 8 down, and behind them a 1, so 100h exactly then.
    shift: u16,
    hear: Hear<'a>,
    source: Source,
    /// The device spoken to: its slave address and record.
    slave: usize,
    record: usize,
    /// The cells of the command, and the mask of their addresses.
    region: usize,
    reach: u8,
    /// What a cycle would store: `page` where `gathered` has ones at `page_at`, and the one-way bits.
    page_at: usize,
    page: u64,
    gathered: u64,
    one_way: u8,
}

impl<'a> Wire<'a> {
    fn new(bus: &'a mut [u8]) -> Self {
        let mut records = [None; 8];
        for (place, record) in bus.chunks_exact(RECORD).enumerate() {
            records[record[SLAVE] as usize] = Some((place * RECORD) as u16);
        }
        Wire {
            bus,
            records,
            volatile: [AFRESH; 8],
            line: Line::Deaf,
            shift: 1,
            hear: Self::device_address,
            source: Source::Cells,
            slave: 0,
            record: 0,
            region: 0,
            reach: 0,
            page_at: 0,
            page: 0,
            gathered: 0,
            one_way: 0,
        }
    }

    /// Plays a checked event file and returns the number of 80h answers.
    fn play(&mut self, events: &[u8], answers: &mut [u8]) -> usize {
        let presence = if self.bus.is_empty() { 0x05 } else { 0x04 };
        let mut refused = 0;
        let mut at = 0;
        for answer in answers {
            let kind = events[at + 2];
            at += 3;
            if kind <= 1 && self.line != Line::Busy {
                *answer = self.frame(kind);
                continue;
            }
            *answer = match kind {
                2 => {
                    self.null();
                    0x02
                }
                3 => {
                    self.wait();
                    0x03
                }
                5 => {
                    let mask = word(&events[at..at + 8]);
                    at += 8;
                    self.cut(mask);
                    presence
                }
                4 if self.line != Line::Busy => {
                    self.reset();
                    presence
                }
                _ => {
                    refused += 1;
                    0x80
                }
            };
        }
        refused
    }

    /// A bit frame while no cycle runs: the level of the wire.
    #[inline]
    fn frame(&mut self, bit: u8) -> u8 {
        match self.line {
            Line::Hear if self.shift < 0x100 => {
                self.shift = self.shift << 1 | bit as u16;
                bit
            }
            Line::Hear => {
                let byte = self.shift as u8;
                self.shift = 1;
                if (self.hear)(self, byte) {
                    0
                } else {
                    self.line = Line::Deaf;
                    bit
                }
            }
            Line::Send if self.shift != 0x100 => {
                let driven = (self.shift >> 8) as u8 & 1;
                self.shift = self.shift << 1 & 0x1FF;
                if self.shift == 0x100 {
                    self.sent();
                }
                bit & driven
            }
            Line::Send => {
                if bit == 0 {
                    self.send();
                } else {
                    self.line = Line::Deaf;
                }
                bit
            }
            Line::Deaf | Line::Busy => bit,
        }
    }

    fn null(&mut self) {
        if self.line == Line::Busy {
            return;
        }
        if self.ripe() {
            self.line = Line::Busy;
        } else {
            self.start();
        }
    }

    fn wait(&mut self) {
        if self.line == Line::Busy || self.ripe() {
            self.store(u64::MAX);
        }
        self.start();
    }

    fn reset(&mut self) {
        self.volatile = [AFRESH; 8];
        self.line = Line::Deaf;
    }

    fn cut(&mut self, mask: u64) {
        if self.line == Line::Busy {
            self.store(mask);
        }
        self.reset();
    }

    /// Straight after the ninth frame of an answered data byte.
    fn ripe(&self) -> bool {
        self.line == Line::Hear && self.shift == 1 && (self.gathered != 0 || self.one_way != 0)
    }

    /// All devices wait for their device address.
    fn start(&mut self) {
        self.line = Line::Hear;
        self.shift = 1;
        self.hear = Self::device_address;
        self.gathered = 0;
        self.one_way = 0;
    }

    /// The end of a cycle: what was gathered is stored where the mask has ones.
    fn store(&mut self, mask: u64) {
        if self.gathered != 0 {
            let cells = &mut self.bus[self.page_at..self.page_at + 8];
            let mask = mask & self.gathered;
            let mixed = word(cells) & !mask | self.page & mask;
            cells.copy_from_slice(&mixed.to_le_bytes());
        }
        if mask & 1 == 1 {
            self.bus[self.record + FLAGS] |= self.one_way;
        }
    }

    // ---- The device spoken to ----

    fn flags(&self) -> u8 {
        self.bus[self.record + FLAGS]
    }

    fn device(&mut self) -> &mut Volatile {
        &mut self.volatile[self.slave]
    }

    fn device_address(&mut self, byte: u8) -> bool {
        let slave = (byte >> 1 & 7) as usize;
        let Some(record) = self.records[slave] else {
            return false;
        };
        self.slave = slave;
        self.record = record as usize;
        let reads = byte & 1 == 1;
        match byte >> 4 {
            0xA => self.access(MAIN, 0x7F, reads, Self::main_address),
            0xB => self.access(SECURITY, 0x1F, reads, Self::security_address),
            0x2 => self.next(if reads { Self::lock_query } else { Self::lock_address }),
            0x7 if reads => match self.device().selector {
                Some(zone) => self.answer_from(Source::Zone(zone)),
                None => false,
            },
            0x7 => self.next(Self::zone_address),
            0x1 if self.flags() & FROZEN != 0 => false,
            0x1 if reads => self.done(),
            0x1 => self.next(Self::freeze_address),
            0xC if reads => self.answer_from(Source::Id(0)),
            0xD if self.bus[self.record + PART] == 0x11 => false,
            0xD => self.speed(true, reads),
            0xE => self.speed(false, reads),
            _ => false,
        }
    }

    fn access(&mut self, region: usize, reach: u8, reads: bool, address: Hear<'a>) -> bool {
        self.region = self.record + region;
        self.reach = reach;
        if reads {
            self.answer_from(Source::Cells)
        } else {
            self.next(address)
        }
    }

    fn speed(&mut self, standard: bool, reads: bool) -> bool {
        if reads && self.device().standard_speed != standard {
            return false;
        }
        self.device().standard_speed = standard;
        self.done()
    }

    /// The byte is answered, and another is taken in.
    fn next(&mut self, hear: Hear<'a>) -> bool {
        self.hear = hear;
        true
    }

    /// The byte is answered, and the command is over.
    fn done(&mut self) -> bool {
        self.line = Line::Deaf;
        true
    }

    /// The byte is answered, and the device puts bytes out.
    fn answer_from(&mut self, source: Source) -> bool {
        self.line = Line::Send;
        self.source = source;
        self.send();
        true
    }

    // ---- Bytes put out ----

    /// Loads the next byte to put out.
    fn send(&mut self) {
        let byte = match self.source {
            Source::Cells => {
                let pointer = self.device().pointer & self.reach;
                self.bus[self.region + pointer as usize]
            }
            Source::Id(3) => {
                self.line = Line::Deaf;
                return;
            }
            Source::Id(begun) => {
                self.source = Source::Id(begun + 1);
                self.bus[self.record + ID + begun as usize]
            }
            Source::Zone(zone) => 0u8.wrapping_sub(self.flags() >> zone & 1),
        };
        self.shift = (byte as u16) << 1 | 1;
    }

    /// The eighth bit is out.
    fn sent(&mut self) {
        if let Source::Cells = self.source {
            let reach = self.reach;
            let device = self.device();
            device.pointer = (device.pointer + 1) & reach;
        }
    }

    // ---- Bytes taken in ----

    fn main_address(&mut self, byte: u8) -> bool {
        self.device().pointer = byte & 0x7F;
        self.next(Self::main_data)
    }

    fn main_data(&mut self, byte: u8) -> bool {
        let zone = self.device().pointer >> 5;
        self.flags() >> zone & 1 == 0 && self.gather(byte)
    }

    fn security_address(&mut self, byte: u8) -> bool {
        self.device().pointer = byte & 0x1F;
        self.next(Self::security_data)
    }

    fn security_data(&mut self, byte: u8) -> bool {
        self.flags() & LOCKED == 0 && self.device().pointer >= 0x10 && self.gather(byte)
    }

    fn gather(&mut self, byte: u8) -> bool {
        let pointer = self.device().pointer;
        let (first, place) = (pointer & !7, pointer & 7);
        let lane = 8 * place as u32;
        self.page_at = self.region + first as usize;
        self.page = self.page & !(0xFF << lane) | (byte as u64) << lane;
        self.gathered |= 0xFF << lane;
        self.device().pointer = first | (place + 1) & 7;
        true
    }

    fn lock_address(&mut self, byte: u8) -> bool {
        byte >> 4 == 6 && self.flags() & LOCKED == 0 && self.next(Self::lock_data)
    }

    fn lock_query(&mut self, byte: u8) -> bool {
        byte >> 4 == 6 && self.flags() & LOCKED == 0 && self.next(Self::no_byte)
    }

    fn lock_data(&mut self, _byte: u8) -> bool {
        self.set(LOCKED)
    }

    fn zone_address(&mut self, byte: u8) -> bool {
        let place = byte & 0x0F;
        if !place.is_power_of_two() {
            return false;
        }
        self.device().selector = Some(place.trailing_zeros() as u8);
        self.next(Self::zone_data)
    }

    fn zone_data(&mut self, byte: u8) -> bool {
        match self.device().selector {
            Some(zone) => byte == 0xFF && self.flags() & FROZEN == 0 && self.set(1 << zone),
            None => false,
        }
    }

    fn freeze_address(&mut self, byte: u8) -> bool {
        byte == 0x55 && self.next(Self::freeze_data)
    }

    fn freeze_data(&mut self, byte: u8) -> bool {
        byte == 0xAA && self.set(FROZEN)
    }

    /// The one data byte of 2h, 7h or 1h is answered; no other will be.
    fn set(&mut self, one_way: u8) -> bool {
        self.one_way = one_way;
        self.next(Self::no_byte)
    }

    fn no_byte(&mut self, _byte: u8) -> bool {
        false
    }
}

fn word(bytes: &[u8]) -> u64 {
    let mut eight = [0; 8];
    eight.copy_from_slice(bytes);
    u64::from_le_bytes(eight)
}
