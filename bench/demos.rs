//! What `demo` prints, plainly: the file of so many rows is made in memory, and then threads sum its rows, each the next
//! chunk of them.

use std::io;
use std::sync::Mutex;
use std::sync::atomic::{AtomicUsize, Ordering};
use std::thread;

const CHUNK: usize = 8192;
const BATCH: usize = 65_536;

/// The segments of the chunks: their ids, their codes and their flags, each behind one another.
struct Demo {
    rows: usize,
    bytes: Vec<u8>,
    ids: Vec<usize>,
    codes: Vec<usize>,
    flags: Vec<usize>,
}

fn push_bits(bytes: &mut Vec<u8>, truths: impl Iterator<Item = bool>) {
    let start = bytes.len();
    for (place, truth) in truths.enumerate() {
        if place % 8 == 0 {
            bytes.push(0);
        }
        bytes[start + place / 8] |= u8::from(truth) << (place % 8);
    }
}

impl Demo {
    fn chunk(&self, place: usize) -> std::ops::Range<usize> {
        place * CHUNK..self.rows.min((place + 1) * CHUNK)
    }

    fn new(rows: usize) -> Demo {
        let mut demo = Demo { rows, bytes: Vec::new(), ids: Vec::new(), codes: Vec::new(), flags: Vec::new() };
        let chunks = rows.div_ceil(CHUNK);
        for place in 0..chunks {
            demo.ids.push(demo.bytes.len());
            for row in demo.chunk(place) {
                demo.bytes.extend_from_slice(&(((31 * row + rows) % 1000) as i64).to_le_bytes());
            }
        }
        let names: Vec<String> = (0..16).map(|code| format!("n{code}")).collect();
        names.iter().for_each(|name| demo.bytes.extend_from_slice(&(name.len() as u32).to_le_bytes()));
        names.iter().for_each(|name| demo.bytes.extend_from_slice(name.as_bytes()));
        for place in 0..chunks {
            demo.codes.push(demo.bytes.len());
            push_bits(&mut demo.bytes, (place * CHUNK..rows.min((place + 1) * CHUNK)).map(|row| row % 7 != 3));
            for row in demo.chunk(place) {
                demo.bytes.push(if row % 7 == 3 { 0 } else { (row % 16) as u8 });
            }
        }
        for place in 0..chunks {
            demo.flags.push(demo.bytes.len());
            push_bits(&mut demo.bytes, (place * CHUNK..rows.min((place + 1) * CHUNK)).map(|row| row % 3 == 0));
        }
        demo
    }

    /// The sum of the ids of a chunk, how many of its names are null, and how many of its flags are true.
    fn sums(&self, place: usize) -> Option<[u64; 3]> {
        let (rows, mut sums) = (self.chunk(place).len(), [0; 3]);
        let bits = |start: usize, row: usize| self.bytes[start + row / 8] >> (row % 8) & 1 == 1;
        let (ids, codes, flags) = (self.ids[place], self.codes[place], self.flags[place]);
        for row in 0..rows {
            let id = self.bytes[ids + 8 * row..ids + 8 * row + 8].try_into().unwrap();
            sums[0] += i64::from_le_bytes(id) as u64;
            let code = self.bytes[codes + rows.div_ceil(8) + row];
            (code < 16).then_some(())?;
            sums[1] += u64::from(!bits(codes, row));
            sums[2] += u64::from(bits(flags, row));
        }
        Some(sums)
    }
}

/// Makes the demo file of so many rows, sums them, and prints the five lines.
pub fn print(rows: usize, threads: usize) -> io::Result<()> {
    let demo = Demo::new(rows);
    let (next, total) = (AtomicUsize::new(0), Mutex::new(Some([0; 3])));
    thread::scope(|scope| {
        for _ in 0..threads {
            scope.spawn(|| loop {
                let place = next.fetch_add(1, Ordering::Relaxed);
                if place >= demo.ids.len() {
                    return;
                }
                let sums = demo.sums(place);
                let mut total = total.lock().unwrap();
                *total = total.zip(sums).map(|(these, those)| std::array::from_fn(|at| these[at] + those[at]));
            });
        }
    });
    let [ids, lacking, flagged] = total.into_inner().unwrap().ok_or_else(|| io::Error::other("no code of a name"))?;
    print!("rows={rows}\nbatches={}\nid_sum={ids}\nname_nulls={lacking}\nflag_true={flagged}\n", rows.div_ceil(BATCH));
    Ok(())
}
