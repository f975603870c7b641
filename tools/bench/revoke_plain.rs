// The removal of revoke_bench in plain Rust, over the same kind of table: a record for each 16 bytes of memory, of
// which the first so many are open. Each descendant is found from the front, spliced out by a pass over the table, and
// asked whether its object is still named.
use std::env;

#[derive(Clone, Copy, PartialEq)]
enum Cap {
    Empty,
    Untyped { offset: u32, bits: u8, watermark: u32 },
    Endpoint { offset: u32, rights: u8, badge: u32 },
}

#[derive(Clone, Copy)]
struct Entry {
    capability: Cap,
    parent: Option<u32>,
}

fn descends(records: &[Option<Entry>], root: u32, slot: u32) -> bool {
    let mut here = slot;
    while let Some(Entry { parent: Some(parent), .. }) = records[here as usize] {
        if parent == root {
            return true;
        }
        here = parent;
    }
    false
}

fn first_below(records: &[Option<Entry>], root: u32) -> Option<u32> {
    (0..records.len() as u32).find(|&slot| {
        matches!(records[slot as usize], Some(entry) if entry.capability != Cap::Empty) && descends(records, root, slot)
    })
}

fn splice(records: &mut [Option<Entry>], gone: u32) {
    let parent = records[gone as usize].and_then(|entry| entry.parent);
    for entry in records.iter_mut().flatten() {
        if entry.parent == Some(gone) {
            entry.parent = parent;
        }
    }
    records[gone as usize] = Some(Entry { capability: Cap::Empty, parent: None });
}

fn is_named(records: &[Option<Entry>], wanted: u32) -> bool {
    records.iter().flatten().any(|entry| matches!(entry.capability, Cap::Endpoint { offset, .. } if offset == wanted))
}

fn main() {
    let words: Vec<String> = env::args().collect();
    let chained = words.get(1).map_or(true, |word| word == "chains");
    let bits: u32 = words.get(2).and_then(|word| word.parse().ok()).unwrap_or(19);
    let mut records = vec![None; 1 << (bits - 4)];
    records[..16384 + 64].fill(Some(Entry { capability: Cap::Empty, parent: None }));
    let endpoint = Cap::Endpoint { offset: 0x40400, rights: 11, badge: 0 };
    records[1] = Some(Entry { capability: Cap::Untyped { offset: 0x40400, bits: 10, watermark: 16 }, parent: None });
    records[2] = Some(Entry { capability: endpoint, parent: Some(1) });
    for chain in 0..40u32 {
        let mut source = 2;
        for index in 3 + 250 * chain..253 + 250 * chain {
            records[index as usize] = Some(Entry { capability: endpoint, parent: Some(source) });
            if chained {
                source = index;
            }
        }
    }
    let mut gone = 0;
    while let Some(slot) = first_below(&records, 2) {
        splice(&mut records, slot);
        assert!(is_named(&records, 0x40400));
        gone += 1;
    }
    println!("{gone}");
}
