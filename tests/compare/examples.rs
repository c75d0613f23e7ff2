//! The checked examples, the example of the trace program and the decided readings, run on the
//! second program, the reading and the C face.

#[path = "../../docs/src/reading.rs"]
mod reading;
#[path = "../../docs/src/second.rs"]
mod second;

mod face;

/// A run, told by what it answered and what it left.
struct Run {
    answers: Vec<u8>,
    bus: Vec<u8>,
    refused: usize,
    reading: reading::Reading,
    /// Where each word of the text ends in the answers.
    ends: Vec<usize>,
}

impl Run {
    /// The answer to the last event of a word.
    fn last(&self, word: usize) -> u8 {
        self.answers[self.ends[word] - 1]
    }

    /// Whether the byte that is this word was answered.
    fn answered(&self, word: usize) -> bool {
        match self.last(word) {
            0 => true,
            1 => false,
            other => panic!("answer {other:02x}"),
        }
    }

    /// The byte that was put out while this word read.
    fn byte(&self, word: usize) -> u8 {
        let end = self.ends[word];
        self.answers[end - 9..end - 1]
            .iter()
            .fold(0, |byte, level| byte << 1 | level)
    }

    fn main(&self, address: usize) -> u8 {
        self.bus[8 + address]
    }

    fn security(&self, address: usize) -> u8 {
        self.bus[136 + address]
    }

    fn flags(&self) -> u8 {
        self.bus[7]
    }

    fn cycles(&self) -> usize {
        self.reading.cycles[0].len()
    }
}

fn device(part: u8, slave: u8, flags: u8) -> Vec<u8> {
    let mut record = vec![0; 168];
    record[..8].copy_from_slice(&[0x53, 0x57, part, slave, 0x00, 0xD3, 0x80, flags]);
    for address in 0..128 {
        record[8 + address] = address as u8 ^ 0x5A;
    }
    for address in 0..8 {
        record[136 + address] = 0xA0 + address as u8;
    }
    record[144..152].fill(0xFF);
    for address in 16..32 {
        record[136 + address] = 0x70 + address as u8;
    }
    record
}

fn one() -> Vec<u8> {
    device(0x11, 0, 0)
}

/// Words: `N W R`; `C` and sixteen digits of a mask; two hex digits: a byte and a ninth frame of 1;
/// `0`, `1`: a frame; `+`, `-`: eight read frames and the master's 0 or 1; `:` and digits: frames.
fn play(bus: &[u8], text: &str) -> Run {
    let mut tape = Vec::new();
    let mut ends = Vec::new();
    let event = |tape: &mut Vec<u8>, kind: u8| tape.extend_from_slice(&[0x45, 0x56, kind]);
    for word in text.split_whitespace() {
        match word {
            "N" => event(&mut tape, 2),
            "W" => event(&mut tape, 3),
            "R" => event(&mut tape, 4),
            "0" => event(&mut tape, 0),
            "1" => event(&mut tape, 1),
            "+" | "-" => {
                for _ in 0..8 {
                    event(&mut tape, 1);
                }
                event(&mut tape, (word == "-") as u8);
            }
            _ if word.starts_with('C') && word.len() == 17 => {
                event(&mut tape, 5);
                tape.extend_from_slice(&u64::from_str_radix(&word[1..], 16).unwrap().to_le_bytes());
            }
            _ if word.starts_with(':') => {
                for digit in word[1..].bytes() {
                    event(&mut tape, digit - b'0');
                }
            }
            _ => {
                assert_eq!(word.len(), 2);
                let byte = u8::from_str_radix(word, 16).unwrap();
                for place in (0..8).rev() {
                    event(&mut tape, byte >> place & 1);
                }
                event(&mut tape, 1);
            }
        }
        ends.push(tape_events(&tape));
    }
    let mut left = bus.to_vec();
    let mut answers = vec![0xEE; tape_events(&tape) + 1];
    let outcome = second::run(&mut left, &tape, &mut answers);
    assert_eq!((outcome.number, outcome.count), (0, tape_events(&tape)));
    assert_eq!(answers.pop(), Some(0xEE));

    let mut proved = bus.to_vec();
    let mut proved_answers = vec![0xEE; answers.len()];
    let ran = face::run(&mut proved, &tape, &mut proved_answers);
    assert_eq!(
        (ran.number, ran.count, ran.refused),
        (0, outcome.count, outcome.refused)
    );
    assert_eq!(proved_answers, answers);
    assert_eq!(proved, left);

    let reading = reading::read(bus, &tape);
    assert_eq!(reading.bus, left);
    Run {
        answers,
        bus: left,
        refused: outcome.refused,
        reading,
        ends,
    }
}

fn tape_events(tape: &[u8]) -> usize {
    let (mut at, mut count) = (0, 0);
    while at < tape.len() {
        at += if tape[at + 2] == 5 { 11 } else { 3 };
        count += 1;
    }
    count
}

#[test]
fn trace_example() {
    let run = play(&one(), "N 1 0 1 0 0 0 0 0 1");
    assert_eq!(
        run.answers,
        [0x02, 0x01, 0x00, 0x01, 0x00, 0x00, 0x00, 0x00, 0x00, 0x00]
    );
    assert_eq!(run.refused, 0);
}

#[test]
fn example_1_empty_bus() {
    let run = play(&[], "R 1");
    assert_eq!(run.answers, [0x05, 0x01]);
}

#[test]
fn example_2_device_0() {
    assert!(play(&one(), "N A0").answered(1));
    assert!(!play(&one(), "N A2").answered(1));
}

#[test]
fn example_3_round_the_page() {
    let run = play(&one(), "N A0 06 11 22 33 W");
    assert_eq!([run.main(0x06), run.main(0x07), run.main(0x00)], [0x11, 0x22, 0x33]);
    assert_eq!(run.main(0x08), 0x08 ^ 0x5A);
}

#[test]
fn example_4_nine_bytes() {
    let run = play(&one(), "N A0 10 01 02 03 04 05 06 07 08 09 W");
    assert_eq!(run.main(0x10), 0x09);
    assert_eq!(run.main(0x11), 0x02);
    assert_eq!(run.main(0x17), 0x08);
}

#[test]
fn example_5_bit_7_is_ignored() {
    assert_eq!(play(&one(), "N A0 86 77 W").main(0x06), 0x77);
}

#[test]
fn example_6_null_after_seven_bits() {
    let run = play(&one(), "N A0 06 :1100110 N 1");
    assert_eq!((run.cycles(), run.refused, run.bus), (0, 0, one()));
}

#[test]
fn example_7_null_before_the_ninth_frame() {
    let run = play(&one(), "N A0 06 11 :11001100 N 1 W");
    assert_eq!((run.cycles(), run.refused, run.bus), (0, 0, one()));
}

#[test]
fn example_8_bit_while_programming() {
    let run = play(&one(), "N A0 06 11 N 1 0 R N");
    assert_eq!(
        [run.last(4), run.last(5), run.last(6), run.last(7), run.last(8)],
        [0x02, 0x80, 0x80, 0x80, 0x02]
    );
    assert_eq!((run.refused, run.bus), (3, one()));
}

#[test]
fn example_9_cut() {
    let mut bus = one();
    bus[8 + 0x22] = 0xF0;
    let run = play(&bus, "N A0 22 3C N C00000000000F0000 1");
    assert_eq!((run.main(0x22), run.last(5)), (0xFC, 0x04));
    bus[8 + 0x22] = 0xFC;
    assert_eq!(run.bus, bus);
    assert_eq!(run.last(6), 0x01);
}

#[test]
fn example_10_zone_byte() {
    assert!(!play(&one(), "N 70 03").answered(2));
    let run = play(&device(0x11, 0, 0x04), "N 70 F4 N 71 + -");
    assert!(run.answered(2) && run.answered(4));
    assert_eq!((run.byte(5), run.byte(6)), (0xFF, 0xFF));
    assert_eq!(play(&device(0x11, 0, 0x0B), "N 70 F4 N 71 -").byte(5), 0x00);
}

#[test]
fn example_11_one_pointer() {
    let run = play(&one(), "N A0 45 N B1 + - N A1 -");
    assert_eq!((run.byte(5), run.byte(6)), (0xA5, 0xA6));
    // Then the pointer is 07h, for Ah too.
    assert_eq!(run.byte(9), 0x07 ^ 0x5A);
}

#[test]
fn example_12_rom_zone() {
    let bus = device(0x11, 0, 0x01);
    let run = play(&bus, "N A0 1F 11");
    assert!(run.answered(1) && run.answered(2) && !run.answered(3));
    assert!(play(&bus, "N A0 20 11").answered(3));
}

#[test]
fn a_wait_begins_and_ends_a_cycle() {
    let run = play(&one(), "N A0 30 99 W A1 -");
    assert_eq!(run.main(0x30), 0x99);
    assert!(run.answered(5));
    assert_eq!(run.byte(6), 0x31 ^ 0x5A);
}

#[test]
fn a_running_cycle_is_not_saved() {
    let run = play(&one(), "N A0 30 99 N");
    assert_eq!((run.cycles(), run.bus), (1, one()));
}

#[test]
fn a_reset_before_the_null_drops_the_write() {
    for end in ["R", "CFFFFFFFFFFFFFFFF"] {
        let run = play(&one(), &format!("N A0 30 99 {end} N W"));
        assert_eq!((run.cycles(), run.bus), (0, one()));
    }
}

#[test]
fn a_sentence_during_a_cycle_is_none() {
    let run = play(&one(), "N A0 30 99 N N A0 40 77 W");
    assert_eq!((run.cycles(), run.main(0x30), run.main(0x40)), (1, 0x99, 0x40 ^ 0x5A));
}

#[test]
fn bits_before_a_null_are_ignored() {
    assert!(!play(&one(), "A0").answered(0));
    assert!(!play(&one(), "N R A0").answered(2));
}

#[test]
fn reads_go_round() {
    let run = play(&one(), "N A0 7F N A1 + - N B0 1F N B1 + -");
    assert_eq!((run.byte(5), run.byte(6)), (0x7F ^ 0x5A, 0x00 ^ 0x5A));
    assert_eq!((run.byte(12), run.byte(13)), (0x70 + 0x1F, 0xA0));
}

#[test]
fn the_pointer_moves_with_the_eighth_bit() {
    assert_eq!(play(&one(), "N A0 10 N A1 :1111111 N A1 -").byte(8), 0x10 ^ 0x5A);
    assert_eq!(play(&one(), "N A0 10 N A1 :11111111 N A1 -").byte(8), 0x11 ^ 0x5A);
    // A Bh read that is given up before its eighth bit leaves even the high bits.
    assert_eq!(play(&one(), "N A0 45 N B1 :1111111 N A1 -").byte(8), 0x45 ^ 0x5A);
    assert_eq!(play(&one(), "N A0 45 N B1 :11111111 N A1 -").byte(8), 0x06 ^ 0x5A);
}

#[test]
fn a_one_ends_a_read() {
    let run = play(&one(), "N A0 25 N A1 - -");
    assert_eq!((run.byte(5), run.byte(6)), (0x25 ^ 0x5A, 0xFF));
}

#[test]
fn security_writes() {
    let run = play(&one(), "N B0 F7 11 22 W N B0 0F 33 W");
    assert_eq!((run.security(0x17), run.security(0x10)), (0x11, 0x22));
    assert!(run.answered(8) && !run.answered(9));
    assert!(!play(&device(0x01, 0, 0x20), "N B0 17 11").answered(3));
}

#[test]
fn lock() {
    let run = play(&one(), "N 20 6A 00 W N 20 60 N 21 6F");
    assert!(run.answered(3) && run.answered(6) && !run.answered(7));
    assert!(run.answered(9) && !run.answered(10));
    assert_eq!(run.flags(), 0x20);
    let run = play(&one(), "N 21 65 00 N W");
    assert!(run.answered(1) && run.answered(2) && !run.answered(3));
    assert_eq!(run.flags(), 0);
    assert!(!play(&one(), "N 20 70").answered(2));
    let run = play(&one(), "N 20 60 00 00 W");
    assert!(!run.answered(4));
    assert_eq!(run.flags(), 0);
}

#[test]
fn zones() {
    let run = play(
        &one(),
        "N 70 F4 FF N CFFFFFFFFFFFFFFFE N 70 04 FF N C0000000000000001 N 71",
    );
    assert_eq!(run.flags(), 0x04);
    assert!(!run.answered(13));
    assert!(!play(&one(), "N 70 01 FE").answered(3));
    let frozen = play(&device(0x01, 0, 0x10), "N 70 01 FF");
    assert!(frozen.answered(1) && frozen.answered(2) && !frozen.answered(3));
    assert_eq!(play(&device(0x01, 0, 0x01), "N 70 01 FF N 1 W").refused, 1);
}

#[test]
fn freeze() {
    assert_eq!(play(&one(), "N 10 55 AA W").flags(), 0x10);
    assert!(!play(&one(), "N 10 54").answered(2));
    assert!(!play(&one(), "N 10 55 AB").answered(3));
    assert!(!play(&device(0x01, 0, 0x10), "N 10").answered(1));
    assert!(!play(&device(0x01, 0, 0x10), "N 11").answered(1));
    let run = play(&one(), "N 11 55 AA W");
    assert!(run.answered(1) && !run.answered(2) && !run.answered(3));
}

#[test]
fn manufacturer_id() {
    let run = play(&one(), "N A0 33 N C1 + + + - N A1 -");
    assert_eq!(
        [run.byte(5), run.byte(6), run.byte(7), run.byte(8)],
        [0x00, 0xD3, 0x80, 0xFF]
    );
    assert_eq!(run.byte(11), 0x33 ^ 0x5A);
    assert!(!play(&one(), "N C0").answered(1));
}

#[test]
fn speed() {
    let slow = device(0x01, 0, 0);
    let run = play(&slow, "N D1 N D0 N D1 N E1 N E0 N E1 N D0 R N D1");
    let answered: Vec<bool> = [1, 3, 5, 7, 9, 11, 13, 16]
        .iter()
        .map(|&word| run.answered(word))
        .collect();
    assert_eq!(answered, [false, true, true, false, true, true, true, false]);
    let run = play(&one(), "N D0 N D1 N E0 N E1");
    assert!(!run.answered(1) && !run.answered(3) && run.answered(5) && run.answered(7));
}

#[test]
fn refusals_in_order() {
    let good = [0x45, 0x56, 0x02];
    let two = [device(0x01, 2, 0), device(0x11, 5, 0)].concat();
    let number = |bus: &[u8], tape: &[u8], room: usize| {
        let mut left = bus.to_vec();
        let mut answers = vec![0xEE; room];
        let outcome = second::run(&mut left, tape, &mut answers);
        let mut proved = bus.to_vec();
        let mut proved_answers = vec![0xEE; room];
        let ran = face::run(&mut proved, tape, &mut proved_answers);
        assert_eq!(
            (ran.number, ran.count, ran.refused),
            (outcome.number, outcome.count, outcome.refused)
        );
        assert_eq!((&proved, &proved_answers), (&left, &answers));
        if outcome.number != 0 {
            assert_eq!((outcome.count, outcome.refused), (0, 0));
            assert!(left == bus && answers.iter().all(|&byte| byte == 0xEE));
        }
        outcome.number
    };
    let with = |changes: &[(usize, u8)]| {
        let mut bus = two.clone();
        for &(at, byte) in changes {
            bus[at] = byte;
        }
        bus
    };
    assert_eq!(number(&two, &good, 1), 0);
    assert_eq!(number(&[], &[], 0), 0);
    assert_eq!(number(&two[..335], &good, 1), 1);
    assert_eq!(number(&[0; 1512], &[0], 0), 1);
    assert_eq!(number(&with(&[(168, 0)]), &good, 1), 2);
    assert_eq!(number(&with(&[(1, 0), (2, 0)]), &good, 1), 2);
    assert_eq!(number(&with(&[(2, 0x10), (3, 8)]), &good, 1), 3);
    assert_eq!(number(&with(&[(171, 8), (175, 0x40)]), &good, 1), 4);
    assert_eq!(number(&with(&[(171, 2), (175, 0x40)]), &good, 1), 5);
    assert_eq!(number(&with(&[(175, 0x80), (168 + 144, 0)]), &good, 1), 6);
    assert_eq!(number(&with(&[(151, 0xFE), (168, 0)]), &[0], 0), 7);
    assert_eq!(number(&two, &[0x45, 0x56], 0), 8);
    assert_eq!(number(&two, &[0x46], 0), 8);
    assert_eq!(number(&two, &[0x45, 0x56, 5, 0, 0, 0, 0, 0, 0, 0], 0), 8);
    assert_eq!(number(&two, &[0x45, 0x57, 6], 0), 9);
    assert_eq!(number(&two, &[0x45, 0x56, 6, 0], 0), 10);
    assert_eq!(number(&two, &[0x45, 0x57, 0, 0x45], 0), 9);
    assert_eq!(number(&two, &good, 0), 11);
    let full = good.repeat(16_384);
    assert_eq!(number(&two, &full, 16_384), 0);
    assert_eq!(number(&two, &full, 16_383), 11);
    assert_eq!(number(&two, &[&full[..], &[0]].concat(), 0), 8);
}

#[test]
fn zone_views() {
    let two = [device(0x01, 2, 0), device(0x11, 5, 0)].concat();
    for (slave, zone, shown) in [
        (2, 0, (0, 8)),
        (5, 3, (0, 168 + 8 + 96)),
        (5, 4, (14, 0)),
        (3, 0, (14, 0)),
        (8, 0, (14, 0)),
    ] {
        assert_eq!(second::zone(&two, slave, zone), shown);
        assert_eq!(face::zone(&two, slave, zone), shown);
    }
    assert_eq!(second::zone(&two[1..], 2, 4), (1, 0));
}
