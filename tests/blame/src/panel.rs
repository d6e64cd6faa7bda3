//! The panel's turn on the buffers of one station, each between guard bytes.

use crate::guarded::Guarded;
use crate::lent::Lent;
use reference::IMAGE_BYTES;

const SESSION_WORDS: usize = 32;

/// Longer than any screen that is asked for here.
const OUT_BYTES: usize = 4_096;

/// Words before and behind those of the session.
const GUARD: u64 = 0xC35A_C35A_0F0F_F0F0;

/// Numbers of include/station.h.
pub const IS_THERE: usize = 0;
pub const ON_TERMINAL: usize = 1;
pub const ONE_COMMAND: usize = 2;
pub const RAM_BYTES: usize = 7;
pub const PAPER_BYTES: usize = 8;
pub const JOURNAL_BYTES: usize = 9;
pub const INDEX_BYTES: usize = 10;

#[derive(Clone, Copy)]
pub enum Event {
    Start = 0,
    Line = 1,
    GoOn = 2,
    EndOfInput = 4,
    FileRead = 5,
    Made = 7,
    Saved = 8,
}

#[derive(Clone, Copy, PartialEq, Eq, Debug)]
pub enum Wants {
    Input,
    GoOn,
    Save,
    End,
    File,
    Make,
}

extern "C" {
    fn station_panel_turn(
        session: *mut u64,
        event: u64,
        input: *const u8,
        input_bytes: usize,
        out: *mut u8,
        out_bytes: usize,
        image: *mut u8,
        image_bytes: usize,
        execution: *const u8,
        execution_bytes: usize,
        bootstrap: *const u8,
        bootstrap_bytes: usize,
        ram: *mut u8,
        ram_bytes: usize,
        paper: *mut u8,
        paper_bytes: usize,
        journal: *mut u8,
        journal_bytes: usize,
        index: *mut u8,
        index_bytes: usize,
    ) -> u64;
}

pub struct Panel {
    session: [u64; SESSION_WORDS + 2],
    out: Guarded,
    pub lent: Lent,
}

/// What a turn answers, with what it shows.
pub struct Turn {
    pub wants: Wants,
    pub status: u64,
    pub on_error_stream: bool,
    pub shown: String,
}

fn wants(number: u64) -> Wants {
    match number {
        0 => Wants::Input,
        1 => Wants::GoOn,
        2 => Wants::Save,
        3 => Wants::End,
        4 => Wants::File,
        5 => Wants::Make,
        other => panic!("the panel wants number {other}"),
    }
}

impl Panel {
    pub fn new(execution: &[u8], bootstrap: &[u8]) -> Panel {
        let nothing = || Guarded::new(&[]);
        let lent = Lent {
            image: Guarded::new(&[0; IMAGE_BYTES]),
            execution: Guarded::new(execution),
            bootstrap: Guarded::new(bootstrap),
            ram: nothing(),
            paper: nothing(),
            journal: nothing(),
            index: nothing(),
        };
        Panel { session: [GUARD; SESSION_WORDS + 2], out: Guarded::new(&[0; OUT_BYTES]), lent }
    }

    /// The words of a session that has not begun.
    pub fn clear_session(&mut self) {
        self.session[1..=SESSION_WORDS].fill(0);
    }

    pub fn word(&self, number: usize) -> u64 {
        self.session[1 + number]
    }

    pub fn set_word(&mut self, number: usize, value: u64) {
        self.session[1 + number] = value;
    }

    pub fn turn(&mut self, event: Event, input: &[u8]) -> Turn {
        let input = Guarded::new(input);
        let lent = &mut self.lent;
        // SAFETY: each pointer and length are those of one live slice; those
        // that are written are slices of their own.
        let answer = unsafe {
            station_panel_turn(
                self.session[1..].as_mut_ptr(),
                event as u64,
                input.content().as_ptr(),
                input.len(),
                self.out.content_mut().as_mut_ptr(),
                self.out.len(),
                lent.image.content_mut().as_mut_ptr(),
                lent.image.len(),
                lent.execution.content().as_ptr(),
                lent.execution.len(),
                lent.bootstrap.content().as_ptr(),
                lent.bootstrap.len(),
                lent.ram.content_mut().as_mut_ptr(),
                lent.ram.len(),
                lent.paper.content_mut().as_mut_ptr(),
                lent.paper.len(),
                lent.journal.content_mut().as_mut_ptr(),
                lent.journal.len(),
                lent.index.content_mut().as_mut_ptr(),
                lent.index.len(),
            )
        };
        assert_eq!(input.touched(), None, "the line");
        self.check_guards();
        let bytes = (answer >> 32) as usize;
        assert!(bytes <= self.out.len(), "{bytes} bytes shown");
        let shown = String::from_utf8(self.out.content()[..bytes].to_vec());
        Turn {
            wants: wants(answer & 0xFF),
            status: answer >> 8 & 0xFF,
            on_error_stream: answer >> 16 & 0xFF == 1,
            shown: shown.expect("a screen is text"),
        }
    }

    fn check_guards(&self) {
        assert_eq!(self.lent.wrong(), None);
        assert_eq!(self.out.guards_hurt(), None, "the screen");
        let ends = (self.session[0], self.session[SESSION_WORDS + 1]);
        assert_eq!(ends, (GUARD, GUARD), "words beside the session's were written");
    }
}
