//! A session held as the C side holds it: at a terminal, or each line as the
//! arguments of a program of its own.

use crate::guarded::Guarded;
use crate::panel::*;

const PROMPT: &str = "station> ";

#[derive(Clone, Copy, PartialEq, Eq, Debug)]
pub enum Manner {
    Terminal,
    Arguments,
}

pub struct Session {
    pub panel: Panel,
    manner: Manner,
}

/// What one line brought: the screen without a prompt, and, in the manner of
/// arguments only, whether it went to the error stream, with the exit status.
#[derive(Clone, Debug)]
pub struct Said {
    pub screen: String,
    pub ended: Option<(bool, u64)>,
}

impl Session {
    /// On buffers that are lent already, or with none yet.
    pub fn open(mut panel: Panel, manner: Manner, is_there: bool) -> Session {
        panel.clear_session();
        panel.set_word(IS_THERE, is_there.into());
        let mut session = Session { panel, manner };
        if manner == Manner::Terminal {
            session.start();
        }
        session
    }

    fn start(&mut self) {
        let is_there = self.panel.word(IS_THERE);
        self.panel.clear_session();
        self.panel.set_word(IS_THERE, is_there);
        self.panel.set_word(ON_TERMINAL, (self.manner == Manner::Terminal).into());
        self.panel.set_word(ONE_COMMAND, (self.manner == Manner::Arguments).into());
        let turn = self.panel.turn(Event::Start, &[]);
        assert_eq!(turn.wants, Wants::Input, "after the start");
    }

    pub fn close(self) -> Panel {
        self.panel
    }

    /// A line that may want a file, whose bytes are then `file`.
    pub fn say_with(&mut self, line: &str, file: &[u8]) -> Said {
        if self.manner == Manner::Arguments {
            self.start();
        }
        let mut turn = self.panel.turn(Event::Line, line.as_bytes());
        let mut shown = turn.shown.clone();
        let on_error_stream = turn.on_error_stream;
        let mut ended = None;
        loop {
            turn = match turn.wants {
                Wants::Input if self.manner == Manner::Terminal => break,
                Wants::Input => self.panel.turn(Event::EndOfInput, &[]),
                Wants::End => {
                    ended = Some((on_error_stream, turn.status));
                    break;
                }
                Wants::GoOn => self.panel.turn(Event::GoOn, &[]),
                Wants::Save => self.panel.turn(Event::Saved, &[]),
                Wants::File => self.panel.turn(Event::FileRead, file),
                Wants::Make => {
                    self.make();
                    self.panel.turn(Event::Made, &[])
                }
            };
            shown.push_str(&turn.shown);
        }
        let screen = match self.manner {
            Manner::Arguments => shown,
            Manner::Terminal => {
                shown.strip_suffix(PROMPT).expect("a prompt behind the screen").to_string()
            }
        };
        Said { screen, ended }
    }

    pub fn say(&mut self, line: &str) -> Said {
        self.say_with(line, &[])
    }

    fn make(&mut self) {
        let zeros = |length: u64| Guarded::new(&vec![0; length as usize]);
        self.panel.lent.ram = zeros(self.panel.word(RAM_BYTES));
        self.panel.lent.paper = zeros(self.panel.word(PAPER_BYTES));
        self.panel.lent.journal = zeros(self.panel.word(JOURNAL_BYTES));
        self.panel.lent.index = zeros(self.panel.word(INDEX_BYTES));
    }
}
