//! The plain Rust twin of `giop_bench mux`: 1,000,000 events over 1,000 ids.
use std::collections::BTreeMap;

const EVENTS: u32 = 1_000_000;
const IDS: u32 = 1_000;

enum Entry {
    Open(u64),
    Closed(u64),
}

enum Event {
    Add(u64),
    Close,
    Remove,
}

enum Refusal {
    NotOpen,
    TooManyCalls,
}

struct Table {
    calls: usize,
    entries: BTreeMap<u32, Entry>,
}

impl Table {
    fn apply(&mut self, id: u32, event: Event) -> Result<u64, Refusal> {
        if let Some(entry) = self.entries.get_mut(&id) {
            let (answer, stays) = match (&mut *entry, event) {
                (Entry::Open(sum), Event::Add(n)) => {
                    *sum = sum.wrapping_add(n);
                    (*sum, true)
                }
                (Entry::Open(sum), Event::Close) => {
                    let sum = *sum;
                    *entry = Entry::Closed(sum);
                    (sum, true)
                }
                (Entry::Closed(sum), Event::Remove) => (*sum, false),
                _ => return Err(Refusal::NotOpen),
            };
            if !stays {
                self.entries.remove(&id);
            }
            return Ok(answer);
        }
        let Event::Add(n) = event else {
            return Err(Refusal::NotOpen);
        };
        if self.entries.len() == self.calls {
            return Err(Refusal::TooManyCalls);
        }
        self.entries.insert(id, Entry::Open(n));
        Ok(n)
    }
}

fn event_at(turn: u32) -> Event {
    match turn / IDS % 16 {
        14 => Event::Close,
        15 => Event::Remove,
        n => Event::Add(u64::from(turn ^ n)),
    }
}

fn checksum(sum: u64, outcome: Result<u64, Refusal>) -> u64 {
    let more = match outcome {
        Ok(answer) => answer,
        Err(Refusal::NotOpen) => 3,
        Err(Refusal::TooManyCalls) => 5,
    };
    sum.rotate_left(5) ^ more
}

fn main() {
    let mut table = Table {
        calls: 1000,
        entries: BTreeMap::new(),
    };
    let mut sum = 0;
    for turn in 0..EVENTS {
        let id = turn.wrapping_mul(617) % IDS * 4099;
        sum = checksum(sum, table.apply(id, event_at(turn)));
    }
    for id in 0..IDS {
        let held = match table.entries.get(&(id * 4099)) {
            Some(Entry::Open(sum)) => *sum,
            Some(Entry::Closed(sum)) => sum ^ 1,
            None => 2,
        };
        sum = sum.rotate_left(5) ^ held;
    }
    println!("{sum}");
}
