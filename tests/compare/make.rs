//! Random bus files and event files. Commands are made whole, then some are damaged, and what may
//! come between commands or during a cycle is thrown in, so that deep places are reached often.

#![allow(dead_code)]

/// SplitMix64.
pub struct Random(u64);

impl Random {
    pub fn new(seed: u64) -> Self {
        Random(seed)
    }

    pub fn word(&mut self) -> u64 {
        self.0 = self.0.wrapping_add(0x9E37_79B9_7F4A_7C15);
        let mut z = self.0;
        z = (z ^ (z >> 30)).wrapping_mul(0xBF58_476D_1CE4_E5B9);
        z = (z ^ (z >> 27)).wrapping_mul(0x94D0_49BB_1331_11EB);
        z ^ (z >> 31)
    }

    pub fn byte(&mut self) -> u8 {
        self.word() as u8
    }

    /// 0 to `below` - 1.
    pub fn below(&mut self, below: usize) -> usize {
        (((self.word() >> 32) * below as u64) >> 32) as usize
    }

    /// `low` to `high`, both included.
    pub fn within(&mut self, low: usize, high: usize) -> usize {
        low + self.below(high - low + 1)
    }

    /// True in `percent` of a hundred.
    pub fn chance(&mut self, percent: usize) -> bool {
        self.below(100) < percent
    }

    pub fn pick<T: Copy>(&mut self, from: &[T]) -> T {
        from[self.below(from.len())]
    }
}

/// An event: a kind and, for a Cut, its mask.
#[derive(Clone, Copy, Debug, PartialEq, Eq)]
pub struct Event {
    pub kind: u8,
    pub mask: u64,
}

pub const NULL: Event = Event { kind: 2, mask: 0 };
pub const WAIT: Event = Event { kind: 3, mask: 0 };
pub const RESET: Event = Event { kind: 4, mask: 0 };

pub fn bit(kind: u8) -> Event {
    Event { kind, mask: 0 }
}

pub fn cut(mask: u64) -> Event {
    Event { kind: 5, mask }
}

/// The event file of some events.
pub fn tape_of(events: &[Event]) -> Vec<u8> {
    let mut tape = Vec::with_capacity(3 * events.len() + 64);
    for event in events {
        tape.extend_from_slice(&[0x45, 0x56, event.kind]);
        if event.kind == 5 {
            tape.extend_from_slice(&event.mask.to_le_bytes());
        }
    }
    tape
}

/// The events of a good event file.
pub fn events_of(tape: &[u8]) -> Vec<Event> {
    let mut events = Vec::new();
    let mut at = 0;
    while at + 3 <= tape.len() {
        let kind = tape[at + 2];
        let mut mask = 0;
        at += 3;
        if kind == 5 {
            let mut eight = [0; 8];
            eight.copy_from_slice(&tape[at..at + 8]);
            mask = u64::from_le_bytes(eight);
            at += 8;
        }
        events.push(Event { kind, mask });
    }
    events
}

/// A letter for each event, a Cut with its mask, a space at each Null, Wait, reset or Cut.
pub fn letters(events: &[Event]) -> String {
    let mut text = String::new();
    let mut bits = 0;
    for event in events {
        if event.kind < 2 {
            if bits > 0 && bits % 9 == 0 {
                text.push('.');
            }
            text.push(if event.kind == 0 { '0' } else { '1' });
            bits += 1;
            continue;
        }
        bits = 0;
        match event.kind {
            2 => text.push_str(" N "),
            3 => text.push_str(" W "),
            4 => text.push_str(" R "),
            _ => text.push_str(&format!(" C({:016x}) ", event.mask)),
        }
    }
    text
}

// ---- Bus files ----

pub fn good_bus(random: &mut Random, devices: usize) -> Vec<u8> {
    let mut free: Vec<u8> = (0..8).collect();
    while free.len() > devices {
        free.remove(random.below(free.len()));
    }
    let mut bus = Vec::with_capacity(168 * devices);
    for slave in free {
        let mut record = [0u8; 168];
        for byte in &mut record {
            *byte = random.byte();
        }
        record[0] = 0x53;
        record[1] = 0x57;
        record[2] = random.pick(&[0x01, 0x11]);
        record[3] = slave;
        record[7] = match random.below(10) {
            0..=4 => 0,
            5 => random.byte() & 0x0F,
            6 => 0x10,
            7 => 0x20,
            8 => 1 << random.below(6),
            _ => random.byte() & 0x3F,
        };
        record[144..152].fill(0xFF);
        if random.chance(20) {
            let fill = random.pick(&[0x00, 0xFF]);
            record[8..136].fill(fill);
            record[152..168].fill(fill);
        }
        bus.extend_from_slice(&record);
    }
    bus
}

// ---- Commands ----

/// Makes the events of one trace.
pub struct Maker<'a> {
    pub random: &'a mut Random,
    /// The slave addresses that are there.
    slaves: Vec<u8>,
    pub events: Vec<Event>,
    /// In a hundred: commands that are damaged.
    damage: usize,
    /// The slave address spoken to last.
    last: u8,
}

impl<'a> Maker<'a> {
    pub fn new(random: &'a mut Random, bus: &[u8], damage: usize) -> Self {
        let slaves: Vec<u8> = bus.chunks(168).map(|record| record[3]).collect();
        let last = slaves.first().copied().unwrap_or(0);
        Maker {
            random,
            slaves,
            events: Vec::new(),
            damage,
            last,
        }
    }

    pub fn byte(&mut self, byte: u8) {
        for place in (0..8).rev() {
            self.events.push(bit(byte >> place & 1));
        }
        let ninth = !self.random.chance(4);
        self.events.push(bit(ninth as u8));
    }

    /// A slave address: mostly one that is there, often the one spoken to last.
    fn slave(&mut self) -> u8 {
        if self.random.chance(40) {
            return self.last;
        }
        self.last = if self.slaves.is_empty() || self.random.chance(7) {
            self.random.below(8) as u8
        } else {
            self.random.pick(&self.slaves)
        };
        self.last
    }

    fn device(&mut self, opcode: u8, slave: u8, reads: bool) {
        self.byte(opcode << 4 | slave << 1 | reads as u8);
    }

    /// A Null, if the command before did not leave the devices started (and often if it did).
    fn start(&mut self) {
        let started = matches!(self.events.last(), Some(event) if event.kind == 2 || event.kind == 3);
        if self.random.chance(3) {
            return;
        }
        if !started || self.random.chance(40) {
            self.events.push(if self.random.chance(95) { NULL } else { WAIT });
        }
    }

    fn mask(&mut self) -> u64 {
        let word = self.random.word();
        match self.random.below(8) {
            0 => 0,
            1 => u64::MAX,
            2 => 1,
            3 => !1,
            4 => 0xFF << (8 * self.random.below(8)),
            5 => 0x0F0F_0F0F_0F0F_0F0F,
            6 => word & self.random.word(),
            _ => word,
        }
    }

    fn main_address(&mut self) -> u8 {
        let address = match self.random.below(4) {
            0 => self.random.pick(&[
                0x00, 0x06, 0x07, 0x08, 0x10, 0x1E, 0x1F, 0x20, 0x3F, 0x40, 0x45, 0x5F, 0x60, 0x7D, 0x7E, 0x7F,
            ]),
            1 => 8 * self.random.below(16) as u8 + 7,
            _ => self.random.byte() & 0x7F,
        };
        address | if self.random.chance(25) { 0x80 } else { 0 }
    }

    fn security_address(&mut self, user: bool) -> u8 {
        let low = if user && self.random.chance(85) {
            0x10 | self.random.byte() & 0x0F
        } else {
            self.random.byte() & 0x1F
        };
        let low = if self.random.chance(15) {
            self.random.pick(&[0x00, 0x07, 0x0F, 0x10, 0x17, 0x18, 0x1E, 0x1F])
        } else {
            low
        };
        low | if self.random.chance(40) {
            self.random.byte() & 0xE0
        } else {
            0
        }
    }

    fn data(&mut self) -> u8 {
        match self.random.below(6) {
            0 => 0x00,
            1 => 0xFF,
            _ => self.random.byte(),
        }
    }

    /// Reads `count` bytes: the master asks for each next one, and mostly ends after the last.
    fn read(&mut self, count: usize) {
        for k in 0..count {
            let stray = self.random.chance(6);
            for _ in 0..8 {
                let master = if stray { self.random.below(2) as u8 } else { 1 };
                self.events.push(bit(master));
            }
            if k + 1 < count {
                self.events.push(bit(0));
            } else if self.random.chance(85) {
                self.events.push(bit(1));
            }
        }
    }

    fn length(&mut self) -> usize {
        match self.random.below(8) {
            0 | 1 => 1,
            2..=6 => self.random.within(1, 12),
            _ => self.random.within(8, 40),
        }
    }

    pub fn write_main(&mut self, count: usize) {
        let (slave, address) = (self.slave(), self.main_address());
        self.start();
        self.device(0xA, slave, false);
        self.byte(address);
        for _ in 0..count {
            let data = self.data();
            self.byte(data);
        }
    }

    pub fn read_main(&mut self, count: usize, random_read: bool) {
        let (slave, address) = (self.slave(), self.main_address());
        self.start();
        if random_read {
            let other = self.random.chance(10);
            self.device(if other { 0xB } else { 0xA }, slave, false);
            self.byte(address);
            self.events.push(NULL);
        }
        self.device(0xA, slave, true);
        self.read(count);
    }

    fn read_security(&mut self, count: usize, random_read: bool) {
        let (slave, address) = (self.slave(), self.security_address(false));
        self.start();
        if random_read {
            let other = self.random.chance(25);
            let address = if other { self.main_address() } else { address };
            self.device(if other { 0xA } else { 0xB }, slave, false);
            self.byte(address);
            self.events.push(NULL);
        }
        self.device(0xB, slave, true);
        self.read(count);
    }

    /// A read given up after some frames, and what the pointer then shows.
    fn abandon(&mut self) {
        let (slave, address) = (self.slave(), self.main_address());
        let (first, second) = (self.random.pick(&[0xA, 0xB]), self.random.pick(&[0xA, 0xA, 0xB]));
        self.start();
        self.device(0xA, slave, false);
        self.byte(address);
        self.events.push(NULL);
        self.device(first, slave, true);
        for _ in 0..self.random.within(0, 10) {
            self.events.push(bit(1));
        }
        self.events.push(NULL);
        self.device(second, slave, true);
        self.read(2);
    }

    fn write_security(&mut self) {
        let (slave, address, count) = (self.slave(), self.security_address(true), self.random.within(1, 12));
        self.start();
        self.device(0xB, slave, false);
        self.byte(address);
        for _ in 0..count {
            let data = self.data();
            self.byte(data);
        }
    }

    fn lock(&mut self) {
        let (slave, reads) = (self.slave(), self.random.chance(15));
        self.start();
        self.device(0x2, slave, reads);
        let address = if self.random.chance(90) {
            0x60 | self.random.byte() & 0x0F
        } else {
            self.random.byte()
        };
        self.byte(address);
        self.one_data(None);
    }

    fn check_lock(&mut self) {
        let (slave, reads) = (self.slave(), self.random.chance(25));
        self.start();
        self.device(0x2, slave, reads);
        let address = 0x60 | self.random.byte() & 0x0F;
        self.byte(address);
        self.events.push(NULL);
    }

    fn zone_byte(&mut self) -> u8 {
        let zone = 1 << self.random.below(4);
        match self.random.below(10) {
            0 => self.random.byte(),
            1 => 0x03,
            2..=5 => zone | self.random.byte() & 0xF0,
            _ => zone,
        }
    }

    fn zone_write(&mut self) {
        let (slave, zone) = (self.slave(), self.zone_byte());
        self.start();
        self.device(0x7, slave, false);
        self.byte(zone);
        self.one_data(Some(0xFF));
    }

    fn zone_read(&mut self) {
        let (slave, zone, count) = (self.slave(), self.zone_byte(), self.random.within(1, 3));
        self.start();
        if self.random.chance(75) {
            self.device(0x7, slave, false);
            self.byte(zone);
            self.events.push(NULL);
        }
        self.device(0x7, slave, true);
        self.read(count);
    }

    fn freeze(&mut self) {
        let (slave, reads) = (self.slave(), self.random.chance(15));
        self.start();
        self.device(0x1, slave, reads);
        let address = if self.random.chance(92) {
            0x55
        } else {
            self.random.byte()
        };
        self.byte(address);
        self.one_data(Some(0xAA));
    }

    /// Mostly one data byte, and mostly the right one.
    fn one_data(&mut self, right: Option<u8>) {
        let count = self.random.pick(&[0, 1, 1, 1, 1, 1, 1, 1, 1, 2]);
        for _ in 0..count {
            let data = match right {
                Some(data) if self.random.chance(92) => data,
                _ => self.data(),
            };
            self.byte(data);
        }
    }

    fn identity(&mut self) {
        let (slave, reads, count) = (self.slave(), self.random.chance(85), self.random.within(1, 5));
        self.start();
        self.device(0xC, slave, reads);
        self.read(count);
    }

    fn speed(&mut self) {
        let slave = self.slave();
        for _ in 0..self.random.pick(&[1, 2, 2, 3]) {
            let (opcode, reads) = (self.random.pick(&[0xD, 0xD, 0xE]), self.random.chance(50));
            self.start();
            self.device(opcode, slave, reads);
        }
        let more = self.random.pick(&[0, 0, 0, 5, 9, 12]);
        self.bits(more);
    }

    fn any_bytes(&mut self) {
        self.start();
        for _ in 0..self.random.within(1, 4) {
            let byte = self.random.byte();
            self.byte(byte);
        }
    }

    fn bits(&mut self, count: usize) {
        for _ in 0..count {
            let master = self.random.below(2) as u8;
            self.events.push(bit(master));
        }
    }

    /// A handful of events of any kind.
    fn litter(&mut self, count: usize) {
        for _ in 0..count {
            let event = match self.random.below(12) {
                0 | 1 => NULL,
                2 => WAIT,
                3 => RESET,
                4 => cut(self.mask()),
                5..=7 => bit(0),
                _ => bit(1),
            };
            self.events.push(event);
        }
    }

    /// What comes after a command that may have begun a cycle.
    fn close(&mut self) {
        match self.random.below(20) {
            0..=7 => self.events.push(WAIT),
            8..=14 => {
                self.events.push(NULL);
                self.meanwhile();
                let end = match self.random.below(10) {
                    0..=4 => WAIT,
                    5..=8 => cut(self.mask()),
                    _ => return,
                };
                self.events.push(end);
            }
            15 => self.events.push(NULL),
            16 => self.events.push(RESET),
            17 => {
                let mask = self.mask();
                self.events.push(cut(mask));
            }
            _ => {}
        }
    }

    /// Frames, Nulls, resets and whole sentences that a running cycle must not notice.
    fn meanwhile(&mut self) {
        match self.random.below(6) {
            0 | 1 => {}
            2 => {
                let count = self.random.within(1, 12);
                self.bits(count);
            }
            3 => {
                for _ in 0..self.random.within(1, 8) {
                    let master = self.random.below(2) as u8;
                    let event = self.random.pick(&[NULL, RESET, bit(master), bit(master)]);
                    self.events.push(event);
                }
            }
            4 => {
                if self.random.chance(50) {
                    self.events.push(NULL);
                }
                let count = self.random.within(1, 3);
                self.write_main(count);
            }
            _ => {
                self.events.push(NULL);
                match self.random.below(4) {
                    0 => self.write_security(),
                    1 => self.zone_write(),
                    2 => self.lock(),
                    _ => self.freeze(),
                }
                if self.random.chance(50) {
                    self.events.push(NULL);
                }
            }
        }
    }

    pub fn command(&mut self) {
        let from = self.events.len();
        let writes = match self.random.below(42) {
            0..=11 => {
                let count = self.random.within(1, 12);
                self.write_main(count);
                true
            }
            12..=16 => {
                self.write_security();
                true
            }
            17..=20 => {
                let (count, random_read) = (self.length(), self.random.chance(65));
                self.read_main(count, random_read);
                false
            }
            21..=23 => {
                let (count, random_read) = (self.length(), self.random.chance(65));
                self.read_security(count, random_read);
                false
            }
            24 | 25 => {
                self.lock();
                true
            }
            26 => {
                self.check_lock();
                false
            }
            27..=29 => {
                self.zone_write();
                true
            }
            30..=32 => {
                self.zone_read();
                false
            }
            33 | 34 => {
                self.freeze();
                true
            }
            35 | 36 => {
                self.identity();
                false
            }
            37 | 38 => {
                self.speed();
                false
            }
            39 | 40 => {
                self.abandon();
                false
            }
            _ => {
                self.any_bytes();
                true
            }
        };
        if self.random.chance(self.damage) {
            self.spoil(from);
        }
        if writes || self.random.chance(20) {
            self.close();
        }
        if self.random.chance(3) {
            let count = self.random.within(1, 6);
            self.litter(count);
        }
    }

    /// Damages the command that begins at `from`: a bit flipped, dropped or added, a Null too early, ...
    fn spoil(&mut self, from: usize) {
        for _ in 0..self.random.pick(&[1, 1, 1, 2]) {
            let length = self.events.len() - from;
            if length == 0 {
                return;
            }
            let at = from
                + if self.random.chance(30) {
                    length - 1 - self.random.below(length.min(10))
                } else {
                    self.random.below(length)
                };
            match self.random.below(16) {
                0..=3 => {
                    if self.events[at].kind < 2 {
                        self.events[at].kind ^= 1;
                    }
                }
                4..=6 => {
                    self.events.remove(at);
                }
                7 | 8 => {
                    let master = self.random.below(2) as u8;
                    self.events.insert(at, bit(master));
                }
                9 | 10 => self.events.insert(at, NULL),
                11 | 12 => self.events.truncate(at),
                13 => self.events.insert(at, WAIT),
                14 => self.events.insert(at, RESET),
                _ => {
                    let mask = self.mask();
                    self.events.insert(at, cut(mask));
                }
            }
        }
    }
}

/// The events of a trace of mixed quality.
pub fn mixed(random: &mut Random, bus: &[u8]) -> Vec<Event> {
    let damage = random.pick(&[0, 5, 15, 40]);
    let mut maker = Maker::new(random, bus, damage);
    if maker.random.chance(85) {
        maker.events.push(NULL);
    }
    match maker.random.below(40) {
        // No command at all.
        0 => {
            let count = maker.random.below(60);
            maker.litter(count);
        }
        // Bits with few Nulls between.
        1 => {
            for _ in 0..maker.random.below(12) {
                let count = maker.random.pick(&[8, 9, 17, 18, 26, 27, 28, 36, 45]);
                maker.bits(count);
                maker.events.push(NULL);
            }
        }
        2 => {
            for _ in 0..maker.random.within(40, 90) {
                maker.command();
            }
        }
        _ => {
            for _ in 0..maker.random.within(0, 14) {
                maker.command();
            }
        }
    }
    maker.events
}
