//! A screen as the panel would lay it out, for answers that are made wrong on
//! purpose.

use crate::screen::{Before, Blame, Frame};

fn grouped(number: u64) -> String {
    let digits = number.to_string();
    let mut text = String::new();
    for (place, digit) in digits.chars().enumerate() {
        if place > 0 && (digits.len() - place) % 3 == 0 {
            text.push(',');
        }
        text.push(digit);
    }
    text
}

fn steps(number: u64) -> String {
    format!("{} step{}", grouped(number), if number == 1 { "" } else { "s" })
}

fn in_frame(Frame { address, changed_at }: &Frame) -> String {
    match changed_at {
        Some(clock) => {
            format!("The last change in frame {address:#010x} was at clock {}.\n", grouped(*clock))
        }
        None => format!("No step on hand changed a byte of frame {address:#010x}.\n"),
    }
}

pub fn blame(blame: &Blame) -> String {
    match blame {
        Blame::Changed { address, change, frame } => format!(
            "{address:#010x} was last changed {} ago, from {:#010x} to {:#010x}:\n  \
             clock {} (after its tick)\n  PC {:#010x}, instruction {:#010x}\n\
             To stand just before that step: before {address:#010x}\n{}",
            steps(change.ago),
            change.old,
            change.new,
            grouped(change.clock),
            change.pc,
            change.instruction,
            in_frame(frame)
        ),
        Blame::None { address, holds, on_hand, frame } => format!(
            "No step on hand changed {address:#010x}, which holds {holds:#010x}.\n\
             On hand: {}. An older change is not in the journal any more.\n{}",
            steps(*on_hand),
            in_frame(frame)
        ),
        Blame::Refused { ram_bytes } => format!(
            "Refused: give a multiple of 4 in RAM, which is {} bytes from 0x20000000.\n",
            grouped(*ram_bytes)
        ),
    }
}

pub fn before(before: &Before) -> String {
    match before {
        Before::Not(not) => blame(not),
        Before::Stands { address, took_back, old, new, instruction, frame, now } => format!(
            "Took back {}.\n\
             The next step changes {address:#010x} from {old:#010x} to {new:#010x},\n\
             by the instruction {instruction:#010x}.\n{}\
             Now: PC {:#010x}, clock {}, {} on hand.\n",
            steps(*took_back),
            in_frame(frame),
            now.pc,
            grouped(now.clock),
            steps(now.on_hand)
        ),
    }
}
