//! A random station with a session of gdb, and the reference beside it.

use crate::dice::Dice;
use crate::faults::Fault;
use crate::met::Met;
use crate::paged::Edge;
use crate::past::Past;
use crate::points::{Points, Watch};
use crate::program::*;
use crate::stub::{Event, Station, Stub, Wants, FULL_ROOMS};
use crate::talk::{self, Nudge};
use reference::diskless::reset;
use reference::{decode, encode, IMAGE_BYTES};

const RECORD_BYTES: usize = 512;
const FRAME: usize = 4_096;

pub const SLOTS: [usize; 6] = [0, 1, 3, 17, 1_100, 5_000];
const CHOICES: [usize; 12] = [0, 1, 2, 3, 3, 4, 4, 4, 4, 5, 5, 5];

pub struct World {
    pub stub: Stub,
    pub past: Past,
    pub plan: Plan,
    /// What the stub was told, and has.
    pub points: Points,
    /// Those, and all that were taken out of it again.
    pub ever: Points,
    /// Whether gdb said that it knows of these two.
    pub swbreak: bool,
    pub hwbreak: bool,
    /// All points are sent before every resume, and taken out after it.
    pub gdb_manner: bool,
    /// A byte 3 came while nothing ran.
    pub kept_interrupt: bool,
    /// The last run stopped before a store, on its way forwards.
    pub before_a_store: bool,
}

fn plan(dice: &mut Dice) -> Plan {
    let home = dice.pick(&[Home::Rom, Home::Ram, Home::Pages]);
    Plan {
        home,
        behind: if dice.chance(2) { [0, 2, 1] } else { [0, 1, 2] },
        interrupts: dice.chance(2),
        user: dice.chance(2),
        kernel_stores: dice.chance(2),
        doubles: home == Home::Pages && dice.chance(4),
    }
}

/// As one that was saved, with no step on hand: any bytes in paper and journal, any
/// next slot, and a clock that is near a carry or its end, now and then.
fn station(dice: &mut Dice, plan: &Plan, slots: usize) -> (Station, u64) {
    let (bootstrap, way) = bootstrap_rom(dice, plan);
    let mut image = vec![0; IMAGE_BYTES];
    let delay = u64::from(dice.between(1, 8));
    let installed = dice.pick(&[0, 1, 0x83, 0xFF]);
    reset(&mut image, &mut [0; 16], 1, delay, installed);
    let mut machine = decode(&image);
    machine.next_slot = if slots == 0 { 0 } else { dice.below(slots as u32) };
    machine.clock = match dice.below(4) {
        0 => (1 << 32) - way - u64::from(dice.below(5_000)),
        1 => u64::MAX - way - u64::from(dice.below(5_000)),
        2 => dice.any_size(),
        _ => 0,
    };
    encode(&machine, &mut image);
    let mut ram = vec![0; FRAMES as usize * FRAME];
    for place in PLACES {
        ram[place as usize] = dice.below(3) as u8;
    }
    let programs = match plan.home {
        Home::Rom => 0,
        Home::Ram => 1,
        Home::Pages => 2,
    };
    for frame in 0..programs {
        let bytes = program(dice, plan, frame);
        ram[frame * FRAME + PROGRAM as usize..][..bytes.len()].copy_from_slice(&bytes);
    }
    let paper = 8 * dice.pick(&[0, 1, 3, 10, 200]);
    let station = Station {
        image,
        execution: vec![0; 4],
        bootstrap,
        index: vec![0; ram.len() / FRAME * 16],
        ram,
        paper: dice.bytes(paper),
        journal: dice.bytes(slots * RECORD_BYTES),
    };
    (station, way)
}

impl World {
    pub fn new(dice: &mut Dice, met: &mut Met) -> World {
        let plan = plan(dice);
        let choice = dice.pick(&CHOICES);
        met.by_slots[choice] += 1;
        met.by_home[plan.home as usize] += 1;
        let slots = SLOTS[choice];
        let (station, way) = station(dice, &plan, slots);
        let mut past = Past::new(station);
        let full = slots as u32;
        let first = match dice.below(5) {
            0 => 0,
            1 => way,
            2 => way + u64::from(dice.below(300)),
            _ => way + u64::from(full + dice.below(full / 4 + 300)),
        };
        let mut steps = 0;
        while steps < first && !past.meets_two() {
            past.step();
            past.forget();
            steps += 1;
        }
        past.run_due(steps);
        let edge = dice.pick(&[Edge::First, Edge::Last]);
        let stub = Stub::new(&past.due, edge, FULL_ROOMS);
        let mut world = World {
            stub,
            past,
            plan,
            points: Points::default(),
            ever: Points::default(),
            swbreak: dice.chance(2),
            hwbreak: dice.chance(2),
            gdb_manner: dice.chance(3),
            kept_interrupt: false,
            before_a_store: false,
        };
        world.begin();
        world
    }

    fn begin(&mut self) {
        let turn = self.stub.turn(Event::Start);
        assert_eq!(turn.wants, Wants::Input, "after the start");
        self.stub.waiting.push(b'+');
        let mut knows = "qSupported:multiprocess+".to_string();
        for (name, is_known) in [(";swbreak+", self.swbreak), (";hwbreak+", self.hwbreak)] {
            if is_known {
                knows.push_str(name);
            }
        }
        let supported = talk::ask(&mut self.stub, &knows, Nudge::Never, true).reply;
        for due in ["QStartNoAckMode+", "ReverseStep+", "ReverseContinue+", "vContSupported+"] {
            assert!(supported.split(';').any(|one| one == due), "no {due} in {supported}");
        }
        self.stub.waiting.push(b'+');
        let answer = talk::ask(&mut self.stub, "QStartNoAckMode", Nudge::Never, true).reply;
        assert_eq!(answer, "OK", "QStartNoAckMode");
        self.stub.waiting.push(b'+');
    }

    /// Asks what has nothing to do with a run.
    pub fn say(&mut self, packet: &str) -> String {
        let answer = talk::ask(&mut self.stub, packet, Nudge::Never, false);
        assert_eq!(answer.errors, "", "{packet}: on standard error");
        answer.reply
    }

    /// Sends the byte that ends a run while there is none.
    pub fn interrupt_nothing(&mut self) {
        self.stub.waiting.push(3);
        let turn = self.stub.turn(Event::GoOn);
        assert!(turn.said.is_empty(), "the byte 3 was answered while nothing ran");
        self.kept_interrupt = true;
    }

    /// Takes out and puts in what makes the difference.
    pub fn set_points(&mut self, due: &Points, fault: Option<Fault>, met: &mut Met) {
        let now = self.points.clone();
        for point in now.breaks.iter().filter(|point| !due.breaks.contains(point)) {
            let packet = format!("z{}", point.text());
            assert_eq!(self.say(&packet), "OK", "{packet}");
            self.points.breaks.retain(|other| other != point);
            met.taken_out += 1;
        }
        for watch in now.watches.iter().filter(|watch| !due.watches.contains(watch)) {
            let packet = format!("z{}", watch.text());
            assert_eq!(self.say(&packet), "OK", "{packet}");
            self.points.watches.retain(|other| other != watch);
            met.taken_out += 1;
        }
        for point in due.breaks.iter().filter(|point| !now.breaks.contains(point)) {
            let packet = format!("Z{}", point.text());
            assert_eq!(self.say(&packet), "OK", "{packet}");
            self.points.breaks.push(*point);
        }
        for watch in due.watches.iter().filter(|watch| !now.watches.contains(watch)) {
            self.put_watch(watch, met);
        }
        if fault == Some(Fault::TakenOutStays) {
            for point in &self.points.breaks {
                if !self.ever.breaks.contains(point) {
                    self.ever.breaks.push(*point);
                }
            }
        } else {
            self.ever = self.points.clone();
        }
        met.most_breaks = met.most_breaks.max(self.points.breaks.len() as u64);
    }

    /// Without a journal no store can be seen before it is done: refused.
    fn put_watch(&mut self, watch: &Watch, met: &mut Met) {
        let packet = format!("Z{}", watch.text());
        let answer = self.say(&packet);
        if self.past.slots == 0 {
            assert_eq!(answer, "E01", "{packet} without a journal");
            met.watches_refused += 1;
        } else {
            assert_eq!(answer, "OK", "{packet}");
            self.points.watches.push(*watch);
        }
    }

    /// Whether a watch means the same place now as when it was put in, by the
    /// machine's own rules for an access.
    pub fn is_determined(&self, watch: &Watch) -> bool {
        let last = watch.bytes - 1;
        self.past.place_of(watch.address) == Some(watch.place)
            && self.past.place_of(watch.address + last) == Some(watch.place + last)
    }
}
