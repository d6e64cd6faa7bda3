//! The hook: what it is told is enough to undo any step.

mod common;

use common::dice::Dice;
use common::states::random_bench;
use common::{lend, put_words};
use reference::{encode, run_recorded, Machine, Memory, Recorder, IMAGE_BYTES, TWO_MATCHES};

#[derive(Default)]
struct Undo {
    before: Option<Machine>,
    ram: Vec<(usize, u32)>,
    paper: Vec<(usize, u8)>,
    records: usize,
}

impl Recorder for Undo {
    fn before_step(&mut self, machine: &Machine) {
        self.before = Some(machine.clone());
    }

    fn ram_word(&mut self, place: usize, old: u32) {
        self.ram.push((place, old));
    }

    fn paper_byte(&mut self, _printer: usize, place: usize, old: u8) {
        self.paper.push((place, old));
    }

    fn after_step(&mut self, _machine: &Machine, record: Option<&mut [u8]>) {
        if let Some(record) = record {
            assert_eq!(record.len(), 512);
            record.fill(0xC5);
            self.records += 1;
        }
    }
}

/// The words of the image that a step changed, on hand and next slot apart.
fn changed_words(before: &[u8], after: &[u8]) -> usize {
    let journal_words = [122, 123];
    let words = |image: &[u8]| -> Vec<[u8; 4]> {
        image[5..].chunks_exact(4).map(|word| word.try_into().unwrap()).collect()
    };
    let (before, after) = (words(before), words(after));
    let others = (0..before.len()).filter(|word| !journal_words.contains(word));
    others.filter(|&word| before[word] != after[word]).count()
}

#[test]
fn reading_86_every_step_can_be_undone() {
    let mut dice = Dice::new(5);
    let (mut words, mut bytes, mut most_bytes, mut records) = (0, 0, 0, 0);
    let mut most_words = 0;
    for _ in 0..2_000 {
        let mut bench = random_bench(&mut dice);
        for _ in 0..60 {
            let mut image = bench.image();
            let before = bench.clone();
            let mut undo = Undo::default();
            let memory = Memory {
                execution_rom: &bench.execution,
                bootstrap_rom: &bench.bootstrap,
                ram: &mut bench.ram,
                paper: &mut bench.paper,
                disks: lend(&mut bench.disks),
            };
            let answer = run_recorded(&mut image, memory, &mut bench.journal, 1, 0, &mut undo);
            assert_eq!(answer.number, 0);
            if answer.reason == TWO_MATCHES {
                assert!(image == before.image() && bench == before);
                break;
            }

            let slot = before.machine.next_slot as usize * 512;
            let mut journal = before.journal.clone();
            if undo.records == 1 {
                journal[slot..slot + 512].fill(0xC5);
            }
            assert!(bench.journal == journal && undo.records == journal.len().min(1));

            let (mut ram, mut paper) = (bench.ram.clone(), bench.paper.clone());
            for &(place, old) in &undo.ram {
                put_words(&mut ram, place, &[old]);
            }
            for &(place, old) in &undo.paper {
                paper[place] = old;
            }
            let mut old_image = vec![0; IMAGE_BYTES];
            encode(&undo.before.unwrap(), &mut old_image);
            assert!(ram == before.ram && paper == before.paper && old_image == before.image());

            assert!(undo.ram.len() <= 1 && undo.paper.len() <= 8);
            most_words = most_words.max(changed_words(&before.image(), &image));
            words += undo.ram.len();
            bytes += undo.paper.len();
            most_bytes = most_bytes.max(undo.paper.len());
            records += undo.records;
            bench.machine = reference::decode(&image);
        }
    }
    println!("{words} RAM words, {bytes} paper bytes (at most {most_bytes} in a step)");
    println!("at most {most_words} words of the image in a step");
    assert!((12..=36).contains(&most_words));
    assert!(words >= 1_000 && bytes >= 200 && most_bytes >= 2 && records >= 1_000);
}
