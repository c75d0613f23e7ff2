//! The C face as safe functions. With `--cfg alone` the second program stands in for it, so that
//! the second program, the reading and the generator can be tried before the library is there.

#[derive(Clone, Copy, Debug, PartialEq, Eq)]
pub struct Ran {
    pub number: u32,
    pub count: usize,
    pub refused: usize,
}

#[cfg(not(alone))]
mod c {
    extern "C" {
        pub fn borewizard_run(
            bus: *mut u8,
            bus_len: usize,
            events: *const u8,
            events_len: usize,
            answers: *mut u8,
            answers_len: usize,
            count: *mut usize,
            refused: *mut usize,
        ) -> u32;
        pub fn borewizard_zone(bus: *const u8, bus_len: usize, slave: u8, zone: u8, from: *mut usize) -> u32;
    }
}

#[cfg(not(alone))]
pub fn run(bus: &mut [u8], events: &[u8], answers: &mut [u8]) -> Ran {
    // Numbers that no run returns: a count that is not written shows.
    let (mut count, mut refused) = (usize::MAX, usize::MAX);
    let number = unsafe {
        c::borewizard_run(
            bus.as_mut_ptr(),
            bus.len(),
            events.as_ptr(),
            events.len(),
            answers.as_mut_ptr(),
            answers.len(),
            &mut count,
            &mut refused,
        )
    };
    Ran { number, count, refused }
}

#[cfg(not(alone))]
pub fn zone(bus: &[u8], slave: u8, zone: u8) -> (u32, usize) {
    let mut from = usize::MAX;
    let number = unsafe { c::borewizard_zone(bus.as_ptr(), bus.len(), slave, zone, &mut from) };
    (number, from)
}

#[cfg(alone)]
pub fn run(bus: &mut [u8], events: &[u8], answers: &mut [u8]) -> Ran {
    let outcome = crate::second::run(bus, events, answers);
    Ran {
        number: outcome.number,
        count: outcome.count,
        refused: outcome.refused,
    }
}

#[cfg(alone)]
pub fn zone(bus: &[u8], slave: u8, zone: u8) -> (u32, usize) {
    crate::second::zone(bus, slave, zone)
}
