//! The judge program under qemu-mipsel.

use std::io::{Read, Write};
use std::process::{Child, ChildStdin, ChildStdout, Command, Stdio};

use crate::case::{bytes_of, words_of, Case, State, BATCH, STATE_WORDS};

pub struct Qemu {
    process: Child,
    to: ChildStdin,
    from: ChildStdout,
}

impl Qemu {
    pub fn start(judge: &str) -> Qemu {
        let mut process = Command::new("qemu-mipsel")
            .arg(judge)
            .stdin(Stdio::piped())
            .stdout(Stdio::piped())
            .spawn()
            .expect("qemu-mipsel starts");
        let to = process.stdin.take().unwrap();
        let from = process.stdout.take().unwrap();
        Qemu { process, to, from }
    }

    /// The states in which the cases of a batch ended.
    pub fn run(&mut self, cases: &[Case]) -> Vec<State> {
        assert_eq!(cases.len(), BATCH);
        let states = bytes_of(cases.iter().flat_map(|case| case.before.words()));
        let code = bytes_of(cases.iter().flat_map(|case| case.code));
        let mut after = vec![0; BATCH * STATE_WORDS * 4];
        let talk = self.to.write_all(&states).and_then(|()| self.to.write_all(&code));
        if talk.and_then(|()| self.from.read_exact(&mut after)).is_err() {
            panic!("the judge stopped early: {:?}", self.process.wait());
        }
        words_of(&after).chunks_exact(STATE_WORDS).map(State::from_words).collect()
    }
}
