//! How often each number was met at each call, and which never was.

use crate::call::Call;
use crate::case::{Case, Outcome};
use crate::pose::Room;
use crate::reach::Reach;
use evaluator::refusal::File;
use std::collections::BTreeMap;

/// The numbers of the refusals, and 0 for accepted.
const NUMBERS: usize = 13;

pub struct Tally {
    calls: Vec<Call>,
    /// By call, file at fault and number.
    numbers: BTreeMap<Key, u64>,
    /// By call, buffer and how its room stood to what was asked for.
    rooms: BTreeMap<Key, u64>,
    reach: Reach,
}

type Key = (usize, usize, usize);

impl Tally {
    pub fn of(calls: &[Call]) -> Tally {
        let mut tally = Tally {
            calls: calls.to_vec(),
            numbers: BTreeMap::new(),
            rooms: BTreeMap::new(),
            reach: Reach::of(calls),
        };
        for &call in calls {
            for (file, number) in call.numbers() {
                tally.numbers.insert(number_key(call, file, number), 0);
            }
            for buffer in 0..call.buffers().len() {
                for room in ROOMS {
                    tally.rooms.insert(room_key(call, buffer, room), 0);
                }
            }
        }
        tally
    }

    pub fn note(&mut self, case: &Case, outcome: &Outcome, file: Option<File>, rooms: &[Room]) {
        let times = self
            .numbers
            .get_mut(&number_key(case.call, file, outcome.number));
        *times.expect("a call gives no number that it can't give") += 1;
        for (buffer, &room) in rooms.iter().enumerate() {
            let times = self.rooms.get_mut(&room_key(case.call, buffer, room));
            *times.expect("every buffer of every call has its rooms") += 1;
        }
        if outcome.number == 0 {
            self.reach.look(case, outcome);
        }
    }

    pub fn print(&self) {
        print!("{:14}", "number");
        (0..NUMBERS).for_each(|number| print!("{number:>8}"));
        println!();
        for &call in &self.calls {
            print!("{:14}", call.name());
            for number in 0..NUMBERS {
                let can = call
                    .numbers()
                    .iter()
                    .any(|&(_, known)| usize::from(known) == number);
                if can {
                    print!("{:>8}", self.total(call, number));
                } else {
                    print!("{:>8}", "-");
                }
            }
            println!();
        }
        println!();
        for (name, times) in self.reach.met() {
            println!("{times:>8} {name}");
        }
        println!();
    }

    fn total(&self, call: Call, number: usize) -> u64 {
        self.numbers
            .iter()
            .filter(|((at, _, known), _)| *at == call as usize && *known == number)
            .map(|(_, times)| times)
            .sum()
    }

    /// What could have been met and wasn't, a line each.
    pub fn never(&self) -> Vec<String> {
        let mut never = Vec::new();
        for &call in &self.calls {
            for (file, number) in call.numbers() {
                if self.numbers[&number_key(call, file, number)] == 0 {
                    let place = file.map_or(String::new(), |file| format!(" for the {file:?}"));
                    never.push(format!("{}: number {number}{place}", call.name()));
                }
            }
            for (buffer, name) in call.buffers().iter().enumerate() {
                for room in ROOMS {
                    if self.rooms[&room_key(call, buffer, room)] == 0 {
                        never.push(format!("{}: room {room:?} for `{name}`", call.name()));
                    }
                }
            }
        }
        never.extend(self.reach.never().map(String::from));
        never
    }
}

const ROOMS: [Room; 5] = [
    Room::Exact,
    Room::Larger,
    Room::OneShort,
    Room::Zero,
    Room::Shorter,
];

/// No file is at fault where a call accepts, and for 11 and 12.
fn number_key(call: Call, file: Option<File>, number: u8) -> Key {
    let place = file.map_or(0, |file| 1 + file as usize);
    (call as usize, place, number.into())
}

fn room_key(call: Call, buffer: usize, room: Room) -> Key {
    (call as usize, buffer, room as usize)
}
