//! `station_gdb_turn` on buffers that lie between pages that may not be touched.

use crate::paged::{Edge, Paged};

/// Numbers of include/station.h.
pub const WORDS: usize = 256;
pub const IN_BYTES: usize = 65_536;
pub const OUT_BYTES: usize = 131_072;
pub const PACKET_BYTES: usize = 16_384;
pub const REPLY_BYTES: usize = 65_536;
pub const KEPT_BYTES: usize = 328_448;
const WORD_USED: usize = 0;
const WORD_SAID: usize = 1;

/// How far beside each buffer is looked at after every turn.
const NEAR: usize = 64;

/// Words before and behind those of the session.
const GUARD: u64 = 0xC35A_C35A_0F0F_F0F0;

#[derive(Clone, Copy, PartialEq, Eq, Debug)]
pub enum Event {
    Start = 0,
    GoOn = 2,
    Interrupt = 3,
    EndOfInput = 4,
    Saved = 8,
    NotSaved = 9,
}

#[derive(Clone, Copy, PartialEq, Eq, Debug)]
pub enum Wants {
    Input,
    GoOn,
    Save,
    End,
}

extern "C" {
    fn station_gdb_turn(
        session: *mut u64,
        event: u64,
        input: *const u8,
        input_bytes: usize,
        out: *mut u8,
        out_bytes: usize,
        packet: *mut u8,
        packet_bytes: usize,
        reply: *mut u8,
        reply_bytes: usize,
        image: *mut u8,
        image_bytes: usize,
        execution: *const u8,
        execution_bytes: usize,
        bootstrap: *const u8,
        bootstrap_bytes: usize,
        ram: *mut u8,
        ram_bytes: usize,
        paper: *mut u8,
        paper_bytes: usize,
        journal: *mut u8,
        journal_bytes: usize,
        index: *mut u8,
        index_bytes: usize,
        kept: *mut u8,
        kept_bytes: usize,
    ) -> u64;
}

/// What a station has.
#[derive(Clone)]
pub struct Station {
    pub image: Vec<u8>,
    pub execution: Vec<u8>,
    pub bootstrap: Vec<u8>,
    pub ram: Vec<u8>,
    pub paper: Vec<u8>,
    pub journal: Vec<u8>,
    pub index: Vec<u8>,
}

/// The lengths of the buffers for one session's own use.
#[derive(Clone, Copy)]
pub struct Rooms {
    pub out: usize,
    pub packet: usize,
    pub reply: usize,
    pub kept: usize,
}

pub const FULL_ROOMS: Rooms =
    Rooms { out: OUT_BYTES, packet: PACKET_BYTES, reply: REPLY_BYTES, kept: KEPT_BYTES };

pub struct Stub {
    session: [u64; WORDS + 2],
    input: Paged,
    out: Paged,
    packet: Paged,
    reply: Paged,
    pub image: Paged,
    execution: Paged,
    bootstrap: Paged,
    pub ram: Paged,
    pub paper: Paged,
    pub journal: Paged,
    pub index: Paged,
    kept: Paged,
    /// What gdb sent and no turn has used.
    pub waiting: Vec<u8>,
    /// Makes what a turn answers wrong, on purpose.
    pub tamper: Option<Tamper>,
}

/// What is wrong on purpose behind a turn.
#[derive(Clone, Copy, PartialEq, Eq, Debug)]
pub enum Tamper {
    WantsAnother,
    MoreSaidThanRoom,
    MoreUsedThanSent,
    MoreForErrorsThanSaid,
    StatusBeforeTheEnd,
    OtherBits,
    WordBeside,
    ByteBeside,
    InputWritten,
}

/// What a turn answers, with what it says to gdb and to standard error.
#[derive(Clone, Debug)]
pub struct Turn {
    pub wants: Wants,
    pub status: u64,
    pub said: Vec<u8>,
    pub errors: Vec<u8>,
    pub used: usize,
}

fn wants(number: u64) -> Wants {
    match number {
        0 => Wants::Input,
        1 => Wants::GoOn,
        2 => Wants::Save,
        3 => Wants::End,
        other => panic!("the stub wants number {other}"),
    }
}

impl Stub {
    pub fn new(station: &Station, edge: Edge, rooms: Rooms) -> Stub {
        let lent = |bytes: &[u8]| Paged::new(bytes, edge);
        let room = |length: usize| Paged::new(&vec![0; length], edge);
        let mut session = [0; WORDS + 2];
        session[0] = GUARD;
        session[WORDS + 1] = GUARD;
        Stub {
            session,
            input: Paged::new(&vec![0; IN_BYTES], Edge::Last),
            out: room(rooms.out),
            packet: room(rooms.packet),
            reply: room(rooms.reply),
            image: lent(&station.image),
            execution: Paged::read_only(&station.execution, edge),
            bootstrap: Paged::read_only(&station.bootstrap, edge),
            ram: lent(&station.ram),
            paper: lent(&station.paper),
            journal: lent(&station.journal),
            index: lent(&station.index),
            kept: room(rooms.kept),
            waiting: Vec::new(),
            tamper: None,
        }
    }

    /// The words of a session that has been held with these buffers, made any words.
    pub fn set_words(&mut self, words: impl FnMut() -> u64) {
        self.session[1..=WORDS].fill_with(words);
    }

    pub fn turn(&mut self, event: Event) -> Turn {
        self.turn_of(event as u64)
    }

    /// Any number as the event.
    pub fn turn_of(&mut self, event: u64) -> Turn {
        let lent = self.waiting.len().min(IN_BYTES);
        self.input.lend_last(&self.waiting[..lent]);
        // SAFETY: each pointer and length are those of one live buffer of its own.
        let answer = unsafe {
            station_gdb_turn(
                self.session[1..].as_mut_ptr(),
                event,
                self.input.content().as_ptr(),
                self.input.len(),
                self.out.content_mut().as_mut_ptr(),
                self.out.len(),
                self.packet.content_mut().as_mut_ptr(),
                self.packet.len(),
                self.reply.content_mut().as_mut_ptr(),
                self.reply.len(),
                self.image.content_mut().as_mut_ptr(),
                self.image.len(),
                self.execution.content().as_ptr(),
                self.execution.len(),
                self.bootstrap.content().as_ptr(),
                self.bootstrap.len(),
                self.ram.content_mut().as_mut_ptr(),
                self.ram.len(),
                self.paper.content_mut().as_mut_ptr(),
                self.paper.len(),
                self.journal.content_mut().as_mut_ptr(),
                self.journal.len(),
                self.index.content_mut().as_mut_ptr(),
                self.index.len(),
                self.kept.content_mut().as_mut_ptr(),
                self.kept.len(),
            )
        };
        let answer = self.tampered(answer, lent);
        self.check_guards(NEAR);
        assert!(self.input.content() == &self.waiting[..lent], "what gdb sent was written to");
        self.taken_apart(answer, lent)
    }

    fn tampered(&mut self, answer: u64, lent: usize) -> u64 {
        let room = (self.out.len() as u64) << 32;
        match self.tamper {
            Some(Tamper::WantsAnother) => return answer & !0xFF | 4,
            Some(Tamper::MoreSaidThanRoom) => return answer & 0xFFFF_FFFF | room + (1 << 32),
            Some(Tamper::StatusBeforeTheEnd) if answer & 0xFF == 0 => return answer | 1 << 8,
            Some(Tamper::OtherBits) => return answer | 1 << 24,
            Some(Tamper::MoreUsedThanSent) => self.session[1 + WORD_USED] = lent as u64 + 1,
            Some(Tamper::MoreForErrorsThanSaid) => {
                self.session[1 + WORD_SAID] = (answer >> 32) + 1;
            }
            Some(Tamper::WordBeside) => self.session[WORDS + 1] += 1,
            Some(Tamper::ByteBeside) => self.image.write_beside(),
            Some(Tamper::InputWritten) => {
                if let Some(byte) = self.input.content_mut().last_mut() {
                    *byte ^= 1;
                }
            }
            _ => {}
        }
        answer
    }

    fn taken_apart(&mut self, answer: u64, lent: usize) -> Turn {
        assert_eq!(answer & 0xFF00_0000, 0, "bits 24 to 31 of the answer {answer:#x}");
        let bytes = (answer >> 32) as usize;
        assert!(bytes <= self.out.len(), "{bytes} bytes said in {}", self.out.len());
        let used = self.session[1 + WORD_USED];
        assert!(used <= lent as u64, "{used} bytes used of {lent}");
        let errors = self.session[1 + WORD_SAID];
        assert!(errors <= bytes as u64, "{errors} bytes for standard error of {bytes}");
        let (said, errors) = self.out.content()[..bytes].split_at(bytes - errors as usize);
        let (said, errors) = (said.to_vec(), errors.to_vec());
        let (wants, status) = (wants(answer & 0xFF), answer >> 8 & 0xFF);
        assert!(wants == Wants::End || status == 0, "status {status} with {wants:?}");
        self.waiting.drain(..used as usize);
        Turn { wants, status, said, errors, used: used as usize }
    }

    /// As far as a page away from each buffer.
    pub fn check_far(&self) {
        self.check_guards(4_096);
    }

    fn check_guards(&self, far: usize) {
        let all = [
            ("what gdb sent", &self.input),
            ("what is said", &self.out),
            ("the packet", &self.packet),
            ("the reply", &self.reply),
            ("the image", &self.image),
            ("RAM", &self.ram),
            ("the paper", &self.paper),
            ("the journal", &self.journal),
            ("the index", &self.index),
            ("what is kept", &self.kept),
        ];
        for (name, buffer) in all {
            assert!(!buffer.hurt(far), "bytes beside {name} were written");
        }
        let ends = (self.session[0], self.session[WORDS + 1]);
        assert_eq!(ends, (GUARD, GUARD), "words beside the session's were written");
    }
}
