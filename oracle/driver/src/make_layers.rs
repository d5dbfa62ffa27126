//! Commands for the layers by chance, inside the domain of comparison of documents 01 and 02. The original answers
//! along, so that the limits (16 held messages, 8 streams) are met and not passed.

use crate::chance::Chance;
use crate::datagrams;
use crate::layers::Layers;
use crate::texts;
use crate::words::hex;

pub struct Making {
    chance: Chance,
    original: Layers,
    lines: Vec<String>,
}

/// The exhaustive part, and then `count` scripts.
pub fn commands(seed: u64, count: u64) -> Vec<String> {
    let mut making = Making { chance: Chance::new(seed), original: Layers::new(), lines: Vec::new() };
    making.say("# every short input".into());
    making.short();
    for script in 0..count {
        making.say(format!("# script {script} of seed {seed}"));
        making.messages(420);
        making.strings(20);
        making.cuts(12);
        making.reassembly(45);
        making.stream(80);
        making.table(120);
    }
    making.lines
}

const ENDS: [u16; 14] = [0, 1, 2, 15, 16, 17, 32_766, 32_767, 32_768, 32_769, 65_520, 65_533, 65_534, 65_535];

impl Making {
    fn say(&mut self, line: String) {
        self.original.answer(&line);
        self.lines.push(line);
    }

    // A datagram inside the domain.
    fn message(&mut self, datagram: &[u8]) {
        if datagrams::without_fragment(datagram) {
            self.say(format!("message {}", hex(datagram)));
        }
    }

    fn short(&mut self) {
        for datagram in datagrams::short().into_iter().chain(datagrams::pairs()).chain(datagrams::long()) {
            self.message(&datagram);
        }
        self.short_strings();
        self.short_cuts();
        self.short_stores();
        self.short_acknacks();
        self.held_everywhere();
        self.sent_round_the_end();
        self.all_ids();
    }

    fn short_strings(&mut self) {
        for length in 0..6u16 {
            for held in 0..8u16 {
                let buf = [&length.to_le_bytes()[..], &vec![0x61; held as usize]].concat();
                self.decode(&buf);
            }
            self.say(format!("encode {}", hex(&vec![0x7a; length as usize])));
        }
        self.decode(&[]);
        self.decode(&[0]);
        for length in [65_534, 65_535] {
            self.there_and_back(&"b".repeat(length));
        }
        self.there_and_back(&"\u{10FFFF}".repeat(16_383));
        for edge in texts::EDGES {
            self.there_and_back(&edge.to_string());
            self.there_and_back(&format!("a{edge}{edge}z"));
        }
        self.short_texts();
    }

    // A text written, and read whole, with a byte missing, and with bytes behind it that are no text.
    fn there_and_back(&mut self, text: &str) {
        self.say(format!("encode {}", hex(text.as_bytes())));
        let buf = texts::string(text.as_bytes());
        self.decode(&buf);
        self.decode(&buf[..buf.len() - 1]);
        if text.len() < 16 {
            self.decode(&[&buf[..], &[0xFF, 0xC0]].concat());
        }
    }

    // Every text of a byte, and of two bytes that make one character; each ill-formed one cut short: 1 comes before 18.
    fn short_texts(&mut self) {
        for byte in 0..=255 {
            self.decode(&texts::string(&[byte]));
            self.decode(&[2, 0, byte]);
        }
        for first in 0xC0..=0xDF {
            for second in 0x7F..=0xC0 {
                self.decode(&texts::string(&[first, second]));
            }
        }
        for ill in texts::ILL_FORMED {
            let longer = [ill, b"a"].concat();
            let buf = texts::string(&longer);
            (0..longer.len()).for_each(|held| self.decode(&buf[..2 + held]));
        }
    }

    // A string inside the domain.
    fn decode(&mut self, buf: &[u8]) {
        if texts::read_alike(buf) {
            self.say(format!("decode {}", hex(buf)));
        }
    }

    fn short_cuts(&mut self) {
        for length in 0..36usize {
            let payload: Vec<u8> = (0..length as u8).collect();
            for size in 0..length + 3 {
                self.say(format!("cut {size} {}", hex(&payload)));
            }
        }
        let payload: Vec<u8> = (0..=65_535u32).map(|i| (i * 7) as u8).collect();
        for (size, length) in [(1, 65_535), (1, 65_536), (2, 65_536), (0, 65_536), (65_535, 65_536), (65_536, 65_536)] {
            self.say(format!("cut {size} {}", hex(&payload[..length])));
        }
        for size in [u64::MAX, u64::MAX - 1, 1 << 63] {
            self.say(format!("cut {size} {}", hex(&payload[..5])));
        }
    }

    // Every list of up to four inserts into stores of up to three places, numbers one past the end included.
    fn short_stores(&mut self) {
        for total in 0..4u64 {
            for list in 0..(total + 1).pow(4) {
                self.say(format!("store {total} 3"));
                let mut rest = list;
                for turn in 0..4 {
                    let at = rest % (total + 1);
                    rest /= total + 1;
                    let body = vec![16 * turn as u8 + at as u8; (at + turn) as usize % 4];
                    self.say(format!("insert {at} {}", hex(&body)));
                    self.say("assemble".into());
                }
                self.say("counts".into());
                for at in 0..total + 2 {
                    self.say(format!("has {at}"));
                }
            }
        }
        self.say("store 65535 1".into());
        for at in [65_535, 65_534, 0, 1, 65_533, 65_534] {
            self.say(format!("insert {at} {:02x}", at % 256));
            self.say(format!("has {at}"));
        }
        self.say("counts".into());
        self.say("assemble".into());
    }

    fn short_acknacks(&mut self) {
        for expected in ENDS {
            self.say(format!("stream 1 0 {expected}"));
            for first in ENDS {
                for last in ENDS {
                    self.say(format!("make_acknack {first} {last}"));
                }
            }
        }
        for expected in 0..3 {
            self.say(format!("stream 1 0 {expected}"));
            for first in 0..20 {
                for last in 0..20 {
                    self.say(format!("make_acknack {first} {last}"));
                }
            }
        }
        for id in [0, 1, 2, 127, 128, 255] {
            self.say(format!("stream {id} 65535 65535"));
            for at in [0, 65_534, 65_535, 65_535, 0, 0, 1] {
                self.say(format!("receive {at}"));
                self.say("alloc".into());
            }
            self.say("record 5 0102".into());
            self.heartbeat();
            self.say("held".into());
        }
    }

    // One message held at each end, asked for at each end: where seq_lt turns.
    fn held_everywhere(&mut self) {
        for held in ENDS {
            for first in ENDS {
                self.say(format!("stream 5 {} 0", held.wrapping_add(2)));
                self.say(format!("record {held} aa"));
                self.say(format!("record {} bb", held.wrapping_add(1)));
                self.heartbeat();
                self.say(format!("acknack {first} 65535"));
                self.heartbeat();
                self.say("held".into());
            }
        }
    }

    // As many as a stream holds, each with the number that it is given, past 65,535; acknowledged and asked for from each of them
    // on, and from those beside.
    fn sent_round_the_end(&mut self) {
        for next in [65_519u16, 65_520, 65_521, 65_528, 65_534, 65_535, 0] {
            for behind in 0..19 {
                self.say(format!("stream 3 {next} 0"));
                for body in 0..16 {
                    let number = self.original.stream.next_send_seq;
                    self.say("alloc".into());
                    self.say(format!("record {number} {body:02x}"));
                }
                let first = next.wrapping_add(behind).wrapping_sub(1);
                for bitmap in [0x8001, 0x5555, 0, 0xFFFF] {
                    self.say(format!("acknack {first} {bitmap}"));
                }
                self.say("held".into());
                self.say("alloc".into());
            }
        }
    }

    // Only where every held number is below the next to send is the original's heartbeat document 02's (W2).
    fn heartbeat(&mut self) {
        let stream = &self.original.stream;
        if stream.unacked.keys().all(|held| *held < stream.next_send_seq) {
            self.say("heartbeat".into());
        }
    }

    // Every id in turn, round the end, with the table full and with one place free.
    fn all_ids(&mut self) {
        for max in [0, 1, 2, 254, 255] {
            self.say(format!("table {max} 10"));
            for time in 0..260 {
                self.say(format!("create 0102{:02x}{:02x} {time}", time % 256, max % 256));
            }
            self.say("live".into());
            for id in [0, 1, 7, 128, 254, 255, 7] {
                self.say(format!("remove {id}"));
            }
            for time in 0..6 {
                self.say(format!("create aabbccdd {time}"));
            }
            self.say("dump".into());
            self.say("sweep 200".into());
            self.say("create 00000000 201".into());
            self.say("dump".into());
        }
    }

    fn messages(&mut self, count: u64) {
        let mut last = datagrams::whole(&mut self.chance);
        for _ in 0..count {
            let datagram = match self.chance.below(10) {
                0..=3 => {
                    last = datagrams::whole(&mut self.chance);
                    last.clone()
                }
                4 => {
                    let length = self.chance.below(24);
                    self.chance.bytes(length)
                }
                _ => datagrams::damaged(&mut self.chance, &last),
            };
            self.message(&datagram);
        }
    }

    fn text(&mut self) -> String {
        let characters = self.chance.pick(&[0, 1, 2, 5, 12, 40]);
        texts::text(&mut self.chance, characters)
    }

    fn strings(&mut self, count: u64) {
        for _ in 0..count {
            let text = self.text();
            self.say(format!("encode {}", hex(text.as_bytes())));
            let buf = texts::string(text.as_bytes());
            let buf = match self.chance.below(4) {
                0 => {
                    let behind = self.chance.within(1, 40);
                    [&buf[..], &self.chance.bytes(behind)].concat()
                }
                1 => datagrams::damaged(&mut self.chance, &buf),
                _ => buf,
            };
            self.decode(&buf);
        }
    }

    fn cuts(&mut self, count: u64) {
        for _ in 0..count {
            let length = self.chance.pick(&[0, 1, 10, 64, 100, 512, 1024, 1500]);
            let payload = self.chance.bytes(length);
            let size = match self.chance.below(4) {
                0 => self.chance.below(4),
                1 => length.saturating_sub(1) + self.chance.below(3),
                2 => (length / 2).saturating_sub(1) + self.chance.below(3),
                _ => self.chance.within(1, 300),
            };
            self.say(format!("cut {size} {}", hex(&payload)));
        }
    }

    fn reassembly(&mut self, count: u64) {
        let total = self.chance.pick(&[0, 1, 2, 3, 4, 8, 16, 40]);
        let width = self.chance.pick(&[1, 2, 8, 64]);
        self.say(format!("store {total} {width}"));
        for _ in 0..count {
            match self.chance.below(8) {
                0..=4 => {
                    let at =
                        if self.chance.one_in(8) { total + self.chance.below(3) } else { self.chance.below(total + 1) };
                    let length = self.chance.below(width + 1);
                    let body = self.chance.bytes(length);
                    self.say(format!("insert {at} {}", hex(&body)));
                }
                5 => self.say("counts".into()),
                6 => {
                    let at = self.chance.below(total + 3);
                    self.say(format!("has {at}"));
                }
                _ => self.say("assemble".into()),
            }
        }
        self.complete(total, width);
    }

    // Every fragment comes at last, in an order by chance.
    fn complete(&mut self, total: u64, width: u64) {
        let mut order: Vec<u64> = (0..total).collect();
        for at in (1..order.len()).rev() {
            order.swap(at, self.chance.below(at as u64 + 1) as usize);
        }
        for at in order {
            let length = self.chance.below(width + 1);
            let body = self.chance.bytes(length);
            self.say(format!("insert {at} {}", hex(&body)));
        }
        self.say("counts".into());
        self.say("assemble".into());
    }

    fn stream(&mut self, count: u64) {
        let id = self.chance.pick(&[0, 1, 1, 2, 127, 128, 255]);
        let (next, expected) = (self.chance.sequence(), self.chance.sequence());
        self.say(format!("stream {id} {next} {expected}"));
        for _ in 0..count {
            self.stream_command();
        }
        self.say("held".into());
    }

    fn stream_command(&mut self) {
        let (next, expected) = (self.original.stream.next_send_seq, self.original.stream.next_recv_seq);
        match self.chance.below(16) {
            0 | 1 => self.say("alloc".into()),
            2..=6 => self.record(),
            7 | 8 => {
                let first = self.near_held();
                let bitmap = self.chance.pick(&[0, 1, 3, 0x8000, 0xFFFF, 0xFFFF, 0x5555, 0x00F0]);
                self.say(format!("acknack {first} {bitmap}"));
            }
            9 => {
                let (first, bitmap) = (self.chance.sequence(), self.chance.word() as u16);
                if self.chance.one_in(6) {
                    self.say(format!("acknack {first} {bitmap}"));
                }
            }
            10 => {
                self.send_past_held();
                self.heartbeat();
            }
            11 | 12 => {
                let at = if self.chance.one_in(3) { self.chance.near(expected) } else { expected };
                self.say(format!("receive {at}"));
            }
            13 | 14 => {
                let (first, last) = (self.chance.near(expected), self.chance.near(expected.wrapping_add(12)));
                let far = self.chance.sequence();
                let last = if self.chance.one_in(4) { far } else { last };
                self.say(format!("make_acknack {first} {last}"));
            }
            _ => {
                let at = self.chance.near(next);
                self.say(format!("make_acknack {at} {next}"));
                self.say("held".into());
            }
        }
    }

    // Takes numbers until the next to send is above every held one, where few are lacking.
    fn send_past_held(&mut self) {
        let stream = &self.original.stream;
        let past = stream.unacked.keys().max().map_or(0, |held| held.saturating_add(1));
        for _ in 0..past.saturating_sub(stream.next_send_seq).min(24) {
            self.say("alloc".into());
        }
    }

    // A number that is held, or near one.
    fn near_held(&mut self) -> u16 {
        let mut held: Vec<u16> = self.original.stream.unacked.keys().copied().collect();
        held.sort();
        if held.is_empty() {
            return self.chance.sequence();
        }
        let from = self.chance.pick(&held);
        from.wrapping_add(self.chance.below(4) as u16).wrapping_sub(2)
    }

    // At most 16 numbers are held; a number that is held may be recorded again.
    fn record(&mut self) {
        let next = self.original.stream.next_send_seq;
        let at = if self.chance.one_in(3) { self.near_held() } else { self.chance.near(next) };
        let unacked = &self.original.stream.unacked;
        if unacked.len() == 16 && !unacked.contains_key(&at) {
            return self.say("held".into());
        }
        let length = match self.chance.below(60) {
            0 => 1024,
            1 => 1023,
            _ => self.chance.below(12),
        };
        let body = self.chance.bytes(length);
        self.say(format!("record {at} {}", hex(&body)));
    }

    fn table(&mut self, count: u64) {
        let max = self.chance.pick(&[0, 1, 2, 3, 5, 8, 60, 255]);
        let timeout = self.chance.pick(&[0, 1, 30, 1000, u64::MAX]);
        self.say(format!("table {max} {timeout}"));
        let mut time = self.chance.pick(&[0, 5, 100_000, 1 << 40, u64::MAX - 1_000_000]);
        for _ in 0..count {
            time = match self.chance.below(12) {
                0 => time.saturating_sub(self.chance.below(timeout.min(2000) + 2)),
                1 => time.saturating_add(self.chance.below(timeout.min(2000) + 2)),
                2 => time.saturating_add(timeout.min(2000)),
                3 => time.saturating_add(timeout.min(2000) + 1),
                _ => time.saturating_add(self.chance.below(4)),
            };
            self.table_command(time, timeout);
        }
        self.say("dump".into());
    }

    fn table_command(&mut self, time: u64, timeout: u64) {
        let id = self.live_or_any();
        match self.chance.below(17) {
            0..=5 => {
                let key = self.chance.bytes(4);
                self.say(format!("create {} {time}", hex(&key)));
            }
            6 | 7 => self.say(format!("touch {id} {time}")),
            8 | 9 => {
                let timeout = if self.chance.one_in(2) { timeout } else { self.chance.below(40) };
                self.say(format!("expired {id} {timeout} {time}"));
            }
            10 => self.say(format!("sweep {time}")),
            11 => self.say(format!("remove {id}")),
            12 => self.say("live".into()),
            13 => self.say("dump".into()),
            _ => self.open(id),
        }
    }

    fn live_or_any(&mut self) -> u8 {
        let mut live: Vec<u8> = self.original.table.sessions.keys().copied().collect();
        live.sort();
        if live.is_empty() || self.chance.one_in(10) {
            return self.chance.byte();
        }
        self.chance.pick(&live[..live.len().min(3)])
    }

    fn open(&mut self, id: u8) {
        let stream = self.chance.pick(&[0, 1, 2, 3, 4, 5, 6, 7, 127, 128, 255]);
        let ninth =
            self.original.table.get(id).is_some_and(|session| {
                session.stream_states.len() == 8 && !session.stream_states.contains_key(&stream)
            });
        if !ninth {
            self.say(format!("open {id} {stream}"));
        }
    }
}
