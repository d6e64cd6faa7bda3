//! Whether what an input brought is what the documents ask for.

use crate::damage::{clear, Clear};
use crate::packet::{heard, Heard};
use crate::session::Brought;
use crate::stub::PACKET_BYTES;

/// Whether `+` and `-` are said: they are until gdb asks for none; after an input
/// that may or may not have asked for it nobody knows.
pub type Acknowledges = Option<bool>;

pub const NO_ACKS: &[u8] = b"QStartNoAckMode";

fn shown(bytes: &[u8]) -> String {
    let cut = &bytes[..bytes.len().min(300)];
    cut.escape_ascii().to_string()
}

/// What all that is said amounts to.
#[derive(Clone, Copy, PartialEq, Eq, Debug)]
pub enum Verdict {
    Replied,
    Refused,
    Doubtful,
    Other,
}

/// An escape with nothing behind it, or a run's length, which gdb never sends: it
/// may be that what is said can not be taken apart. Whether such a packet gets a
/// reply or `-`, no document says.
fn is_doubtful(said: &[u8]) -> bool {
    said.ends_with(b"}") || said.contains(&b'*')
}

fn is_monitor(said: &[u8]) -> bool {
    said.starts_with(b"qRcmd,")
}

fn may_end(said: &[u8]) -> bool {
    said.starts_with(b"D") || said.starts_with(b"k") || said.starts_with(b"vKill")
}

/// One packet with a right sum.
fn right(said: &[u8], heard: &[Heard], acks: Acknowledges, brought: &Brought, input: &str) {
    let plus = heard.iter().filter(|one| **one == Heard::Plus).count();
    let minus = heard.iter().filter(|one| **one == Heard::Minus).count();
    let packets: Vec<&[u8]> = heard
        .iter()
        .filter_map(|one| match one {
            Heard::Packet(packet) => Some(&packet[..]),
            _ => None,
        })
        .collect();
    assert_eq!(minus, 0, "{input}: - for a right sum");
    match acks {
        Some(true) => {
            assert_eq!(heard.first(), Some(&Heard::Plus), "{input}: + does not come first");
            assert_eq!(plus, 1, "{input}: + comes {plus} times");
        }
        Some(false) => assert_eq!(plus, 0, "{input}: + though gdb asked for none"),
        None => {}
    }
    if brought.ended.is_some() {
        assert!(may_end(said), "{input}: the session ended");
        assert!(packets.len() <= 1, "{input}: {} replies", packets.len());
        return;
    }
    assert!(!packets.is_empty(), "{input}: no reply, but {}", shown(&brought.said));
    if is_monitor(said) {
        let (_, before) = packets.split_last().expect("a reply");
        let outputs = before.iter().all(|packet| packet.starts_with(b"O"));
        assert!(outputs, "{input}: a second reply to a monitor's line");
    } else {
        assert_eq!(packets.len(), 1, "{input}: {} replies", packets.len());
    }
}

/// From a clean start. `is_sure`: nothing of the session or its buffers is damaged.
pub fn judge(bytes: &[u8], acks: Acknowledges, brought: &Brought, is_sure: bool) -> Verdict {
    let input = shown(bytes);
    if let Some(status) = brought.ended {
        assert!(status <= 4, "{input}: exit status {status}");
    }
    if !is_sure {
        return Verdict::Other;
    }
    let what = heard(&brought.said)
        .unwrap_or_else(|| panic!("{input}: no whole packets: {}", shown(&brought.said)));
    match clear(bytes) {
        // gdb was told how long a packet may be.
        Clear::Right(said) if is_doubtful(&said) => {
            if acks == Some(true) && what != [Heard::Minus] {
                right(&said, &what, acks, brought, &input);
            }
            Verdict::Doubtful
        }
        Clear::Right(said) if said.len() + 4 <= PACKET_BYTES => {
            right(&said, &what, acks, brought, &input);
            Verdict::Replied
        }
        Clear::Wrong if bytes.len() <= PACKET_BYTES && acks == Some(true) => {
            assert_eq!(what, [Heard::Minus], "{input}: a wrong sum");
            Verdict::Refused
        }
        _ => Verdict::Other,
    }
}

/// How it acknowledges after the input.
pub fn acks_after(bytes: &[u8], acks: Acknowledges, brought: &Brought) -> Acknowledges {
    let mentions = bytes.windows(NO_ACKS.len()).any(|part| part == NO_ACKS);
    match clear(bytes) {
        _ if !mentions => acks,
        Clear::Right(said) if said == NO_ACKS && brought.said.ends_with(b"$OK#9a") => Some(false),
        Clear::Wrong => acks,
        _ => None,
    }
}
