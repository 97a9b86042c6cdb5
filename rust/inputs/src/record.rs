//! Policy records as bytes and by their parts.
//! A record may be any, valid or not; a random one is valid.

use crate::Random;

/// What a record is written from: V, F, n and e, and the two arrays, of which each may have any length.
#[derive(Clone, Debug, PartialEq, Eq)]
pub struct Parts {
    pub sizes: [u64; 4],
    pub pages: Vec<u16>,
    pub frames: Vec<u16>,
}

impl Parts {
    /// The parts of a record that is as long as its n asks for.
    pub fn of(record: &[u8]) -> Parts {
        let numbers: Vec<_> =
            record.chunks_exact(2).map(|pair| u16::from_le_bytes([pair[0], pair[1]])).collect();
        let (sizes, arrays) = numbers.split_at(4);
        let (pages, frames) = arrays.split_at(sizes[2].into());
        Parts {
            sizes: std::array::from_fn(|place| sizes[place].into()),
            pages: pages.into(),
            frames: frames.into(),
        }
    }
}

/// A policy record of these sizes and of listed pages with their frames.
pub fn record(v: u16, f: u16, e: u16, listed: &[(u16, u16)]) -> Vec<u8> {
    let sizes = [v, f, listed.len() as u16, e];
    let pages = listed.iter().map(|&(page, _)| page);
    let frames = listed.iter().map(|&(_, frame)| frame);
    sizes.into_iter().chain(pages).chain(frames).flat_map(u16::to_le_bytes).collect()
}

/// A valid record of these sizes that lists few or many pages, and at least one.
pub fn random_record(random: &mut Random, v: u16, f: u16) -> Vec<u8> {
    let share = random.pick(&[1, 3, 4, 8, 100]);
    let mut listed = Vec::new();
    for page in 0..v {
        if random.one_in(share) {
            listed.push((page, random.below(f.into()) as u16));
        }
    }
    if listed.is_empty() {
        listed.push((random.below(v.into()) as u16, random.below(f.into()) as u16));
    }
    let e = 1 + random.below(16.min(listed.len() as u64));
    record(v, f, e as u16, &listed)
}
