//! The plain Rust twin of `giop_bench frag-SIZE IDS`: 64 MB in pieces of SIZE octets, interleaved over
//! IDS ids, as often as the third word says. Each id has one growing `Vec`.
use std::collections::BTreeMap;

const OCTETS: usize = 64 << 20;
struct Gather {
    limit: usize,
    total: usize,
    lists: BTreeMap<u32, Vec<u8>>,
}

#[derive(PartialEq)]
enum Fault {
    Stray,
    Full,
}

impl Gather {
    fn begin(&mut self, id: u32, octets: &[u8]) -> Result<(), Fault> {
        if octets.len() > self.limit - self.total {
            return Err(Fault::Full);
        }
        self.lists.insert(id, octets.to_vec());
        self.total += octets.len();
        Ok(())
    }

    fn add(&mut self, id: u32, octets: &[u8]) -> Result<(), Fault> {
        let Some(list) = self.lists.get_mut(&id) else {
            return Err(Fault::Stray);
        };
        if octets.len() > self.limit - self.total {
            return Err(Fault::Full);
        }
        list.extend_from_slice(octets);
        self.total += octets.len();
        Ok(())
    }

    fn chain(&self, id: u32) -> Option<&[u8]> {
        self.lists.get(&id).map(Vec::as_slice)
    }

    fn discard(&mut self, id: u32) {
        if let Some(list) = self.lists.remove(&id) {
            self.total -= list.len();
        }
    }
}

fn checksum(sum: u64, octets: &[u8]) -> u64 {
    let sum = sum.rotate_left(5) ^ octets.len() as u64;
    octets
        .chunks(512)
        .fold(sum, |sum, part| sum.rotate_left(1) ^ u64::from(part[0]))
}

fn number(n: usize, default: usize) -> usize {
    std::env::args().nth(n).and_then(|word| word.parse().ok()).unwrap_or(default)
}

fn main() {
    let size = number(1, 512).min(4096);
    let ids = number(2, 64) as u32;
    let mut gather = Gather {
        limit: OCTETS,
        total: 0,
        lists: BTreeMap::new(),
    };
    let mut sum = 0;
    for _ in 0..number(3, 1) {
        sum ^= gathered(&mut gather, size, ids);
        sum = decoded(&mut gather, ids, sum);
    }
    println!("{sum}");
}

fn gathered(gather: &mut Gather, size: usize, ids: u32) -> u64 {
    let mut piece = vec![0u8; size];
    let mut refused = 0u64;
    for turn in 0..OCTETS / (size * ids as usize) {
        piece[0] = (turn % 251) as u8;
        for k in 0..ids {
            let id = (k.wrapping_mul(37) % ids).wrapping_mul(4099);
            let done = if turn == 0 {
                gather.begin(id, &piece)
            } else {
                gather.add(id, &piece)
            };
            if done.is_err() {
                refused += 1;
            }
        }
    }
    refused ^ gather.total as u64
}

fn decoded(gather: &mut Gather, ids: u32, mut sum: u64) -> u64 {
    for k in 0..ids {
        let id = k.wrapping_mul(4099);
        if let Some(octets) = gather.chain(id) {
            sum = checksum(sum, octets);
        }
        gather.discard(id);
    }
    sum
}
