//! The words of the station in plain Rust, to measure against.
mod lane;
mod loads;
mod table;
mod text;
mod wire;

use lane::{Cause, Lane, answer, walk};
use std::fs::File;
use std::io::{Read, Write};
use std::os::fd::FromRawFd;
use std::sync::Mutex;
use text::{Out, Query};

const CHUNK: usize = 1 << 16;

fn stdin() -> File {
    // SAFETY: descriptor 0 is the process's own standard input.
    unsafe { File::from_raw_fd(0) }
}

fn main() {
    let words: Vec<String> = std::env::args().skip(1).collect();
    let w: Vec<&str> = words.iter().map(|s| s.as_str()).collect();
    let mut out = Out::stdout();
    let status = match w.as_slice() {
        ["limit"] => limit(&mut out),
        ["gen", s, _lanes, m, l] => put(&loads::drill(num(s), num(l), num(m))),
        ["gen-table", n, s] => put(&loads::table(num(n), num(s))),
        _ => station(&w, &mut out),
    };
    out.flush();
    std::process::exit(if out.failed { 4 } else { status as i32 });
}

fn num(s: &str) -> u32 {
    text::number(s.as_bytes()).expect("a number")
}

fn put(b: &[u8]) -> u8 {
    // SAFETY: as in `Out::stdout`.
    let mut f = std::mem::ManuallyDrop::new(unsafe { File::from_raw_fd(1) });
    if f.write_all(b).is_ok() { 0 } else { 4 }
}

fn station(w: &[&str], out: &mut Out) -> u8 {
    match w {
        ["check"] => return check(out),
        ["replay", q @ ..] => match text::query(q.join(" ").as_bytes()) {
            None | Some(Query::Quit) => (),
            Some(q) => return replay(&q, out),
        },
        ["drill", s, l, m] => {
            let n = |t: &str| text::number(t.as_bytes());
            if let (Some(s), Some(l @ 1..=16), Some(m @ 1..=100_000)) = (n(s), n(l), n(m)) {
                return drill(s, l, m, out);
            }
        }
        _ => (),
    }
    out.raw(b"usage: bmpstation replay QUERY, check, serve OPTIONS, or drill SEED LANES MESSAGES");
    out.line();
    2
}

fn replay(q: &Query, out: &mut Out) -> u8 {
    let mut lane = Lane::new(true);
    let cause = walk(&mut stdin(), CHUNK, |k, b| lane.frame(k, b), || ());
    answer(std::slice::from_ref(&lane), q, out);
    cause.put(out);
    out.flush();
    // The tables need no tidying before the process ends.
    std::mem::forget(lane);
    cause.status()
}

fn check(out: &mut Out) -> u8 {
    let mut lane = Lane::new(false);
    let mut kinds = [0u64; 8];
    let cause = walk(
        &mut stdin(),
        CHUNK,
        |k, b| {
            let right = lane.frame(k, b);
            kinds[k.min(7) as usize] += right as u64;
            right
        },
        || (),
    );
    put_counts(lane.messages, lane.bytes, &kinds, &cause, out)
}

fn put_counts(messages: u64, bytes: u64, kinds: &[u64; 8], cause: &Cause, out: &mut Out) -> u8 {
    for (name, n) in [
        ("messages ", messages),
        ("bytes ", bytes),
        ("route-monitoring ", kinds[0]),
        ("statistics-report ", kinds[1]),
        ("peer-down ", kinds[2]),
        ("peer-up ", kinds[3]),
        ("initiation ", kinds[4]),
        ("termination ", kinds[5]),
        ("route-mirroring ", kinds[6]),
        ("other ", kinds[7]),
    ] {
        out.raw(name.as_bytes());
        out.num(n);
        out.line();
    }
    cause.put(out);
    cause.status()
}

/// Headers alone: what no station can be faster than.
fn limit(out: &mut Out) -> u8 {
    let (mut kinds, mut bytes) = ([0u64; 8], 0);
    let cause = walk(
        &mut stdin(),
        CHUNK,
        |k, b| {
            kinds[k.min(7) as usize] += 1;
            bytes += b.len() as u64 + 6;
            true
        },
        || (),
    );
    put_counts(kinds.iter().sum(), bytes, &kinds, &cause, out)
}

struct Pieces<'a>(&'a [u8]);

impl Read for Pieces<'_> {
    fn read(&mut self, b: &mut [u8]) -> std::io::Result<usize> {
        let n = self.0.len().min(b.len());
        b[..n].copy_from_slice(&self.0[..n]);
        self.0 = &self.0[n..];
        Ok(n)
    }
}

fn drill(seed: u32, lanes: u32, messages: u32, out: &mut Out) -> u8 {
    // What is published: each lane's number of entries, in one order.
    let cut = Mutex::new(vec![0u64; lanes as usize]);
    let done: Vec<Lane> = std::thread::scope(|s| {
        let feeds: Vec<_> = (0..lanes)
            .map(|l| {
                let cut = &cut;
                s.spawn(move || {
                    let stream = loads::drill(seed, l, messages);
                    let lane = std::cell::RefCell::new(Lane::new(true));
                    let publish = || cut.lock().unwrap()[l as usize] = lane.borrow().messages + 1;
                    publish();
                    walk(&mut Pieces(&stream), 4096, |k, b| lane.borrow_mut().frame(k, b), publish);
                    lane.into_inner()
                })
            })
            .collect();
        for _ in 0..4 {
            s.spawn(|| {
                for _ in 0..16 {
                    let seen = cut.lock().unwrap().clone();
                    let mut o = Out::null();
                    o.raw(b"at ");
                    o.num(seen.iter().sum());
                    for (l, n) in seen.iter().enumerate() {
                        o.raw(b"\nlane ");
                        o.num(l as u64);
                        o.byte(b' ');
                        o.num(*n);
                    }
                    std::hint::black_box(o.taken().len());
                }
            });
        }
        feeds.into_iter().map(|t| t.join().unwrap()).collect()
    });
    for q in [Query::Cut, Query::Routers, Query::Count(Default::default())] {
        answer(&done, &q, out);
    }
    out.flush();
    std::mem::forget(done);
    0
}
