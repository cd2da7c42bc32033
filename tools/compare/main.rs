//! Compares every call of the program with the Rust. See `run` for the usage.
mod frames;
mod port;
mod quantise;

use frames::{needed, Frame, Rng};
use oracle::sbr_encoder::SbrEncoder;
use oracle::sbr_grid::{FrameClass, SbrGrid};
use oracle::sbr_qmf::Complex;
use oracle::sbr_time_grid::derive_time_grid;
use oxideav_core::bits::{BitReader, BitWriter};
use port::{Place, Record, Times, Turn};
use std::collections::BTreeMap;

/// What stands in every output before a call, so that a touched one shows.
const OLD: Record = Record { numbers: [0xa5a5_a5a5; 9], flags: [0x5a; 5], rel_0: [0xa5; 4], rel_1: [0x5a; 4] };
const OLD_TIMES: Times = Times { t_e: [0xa5a5_a5a5; 6], t_q: [0x5a5a_5a5a; 3], l_a: -77 };
const OLD_NUMBER: f64 = -12345.678;

type Counts = BTreeMap<&'static str, u64>;

fn add(counts: &mut Counts, what: &'static str, n: u64) {
    *counts.entry(what).or_insert(0) += n;
}

fn count(counts: &mut Counts, what: &'static str) {
    add(counts, what, 1);
}

fn record_of(g: &SbrGrid) -> Record {
    let mut r = Record { numbers: [0; 9], flags: [0; 5], rel_0: [0; 4], rel_1: [0; 4] };
    r.numbers = [
        g.frame_class.to_bits(), g.num_env as u32, g.num_noise as u32, g.var_bord_0 as u32, g.var_bord_1 as u32,
        g.rel_bord_0.len() as u32, g.rel_bord_1.len() as u32, g.pointer, g.amp_res_override as u32,
    ];
    for (to, &from) in r.flags.iter_mut().zip(&g.freq_res) {
        *to = from as u8;
    }
    r.rel_0[..g.rel_bord_0.len()].copy_from_slice(&g.rel_bord_0);
    r.rel_1[..g.rel_bord_1.len()].copy_from_slice(&g.rel_bord_1);
    r
}

fn grid_of(r: &Record) -> SbrGrid {
    let n = r.numbers;
    SbrGrid {
        frame_class: [FrameClass::FixFix, FrameClass::FixVar, FrameClass::VarFix, FrameClass::VarVar][n[0] as usize],
        num_env: n[1] as usize,
        num_noise: n[2] as usize,
        freq_res: r.flags[..(n[1] as usize).min(5)].iter().map(|&f| f == 1).collect(),
        var_bord_0: n[3] as u8,
        var_bord_1: n[4] as u8,
        rel_bord_0: r.rel_0[..n[5] as usize].to_vec(),
        rel_bord_1: r.rel_1[..n[6] as usize].to_vec(),
        pointer: n[7],
        amp_res_override: n[8] == 1,
    }
}

fn times_of(t: &oracle::sbr_time_grid::TimeGrid) -> Times {
    let mut out = Times { t_e: [0; 6], t_q: [0; 3], l_a: t.l_a };
    for (to, &from) in out.t_e.iter_mut().zip(&t.t_e) {
        *to = from as u32;
    }
    for (to, &from) in out.t_q.iter_mut().zip(&t.t_q) {
        *to = from as u32;
    }
    out
}

fn same(a: f64, b: f64) -> bool {
    a.to_bits() == b.to_bits() || (a.is_nan() && b.is_nan())
}

// ---- elections and energies

/// Whether a quotient that could decide the resolution of the envelope is within 8 units of the limit.
fn near_limit(x: &[[Complex; 64]], high: &[u8], low: &[u8], t0: usize, t1: usize) -> bool {
    let limit = 10f64.powf(0.6);
    let mean = |kl: usize, kh: usize| -> f64 {
        let sum: f64 = x[2 * t0 + 2..2 * t1 + 2].iter().map(|c| c[kl..kh].iter().map(|v| v.norm_sqr()).sum::<f64>()).sum();
        sum / ((2 * (t1 - t0)) * (kh - kl)) as f64
    };
    low.windows(2).any(|lo| {
        let inside: Vec<f64> = high.windows(2).filter(|h| h[0] >= lo[0] && h[1] <= lo[1]).map(|h| mean(h[0] as usize, h[1] as usize)).collect();
        let largest = inside.iter().cloned().fold(0.0, f64::max);
        let smallest = inside.iter().cloned().fold(f64::INFINITY, f64::min);
        let quotient = largest / smallest.max(64.0);
        inside.len() > 1 && largest > 64.0 && (quotient - limit).abs() <= 8.0 * 2f64.powi(-51)
    })
}

/// The first difference between the program and the Rust on a frame, or the election.
fn compare_frame(f: &Frame, rng: &mut Rng, counts: &mut Counts) -> Result<Record, String> {
    let x: Vec<[Complex; 64]> = f.x[..needed(f.slots)]
        .chunks(128)
        .map(|c| {
            let mut column = [Complex::default(); 64];
            for (k, v) in column.iter_mut().enumerate() {
                *v = Complex { re: c[2 * k], im: c[2 * k + 1] };
            }
            column
        })
        .collect();
    let encoder = SbrEncoder::new(f.slots, f.variable, &f.high, &f.low);
    let (grid, transient) = encoder.elect(&x, f.previous);
    let (mut flag, mut record) = (99, OLD);
    let code = port::elect_grid(&f.x, &f.high, &f.low, f.previous, f.variable as u32, f.slots as u64, &mut flag, &mut record);
    if code != 0 {
        return Err(format!("election refused by {code}"));
    }
    let mut wanted = record_of(&grid);
    count(counts, ["elections FixFix", "elections FixVar", "elections VarFix", "elections VarVar"][wanted.numbers[0] as usize]);
    let time = derive_time_grid(&grid, f.slots as i32).map_err(|_| "the Rust elected a grid without time grid".to_string())?;
    for l in 0..grid.num_env {
        if wanted.flags[l] != record.flags[l] && near_limit(&x, &f.high, &f.low, time.t_e[l] as usize, time.t_e[l + 1] as usize) {
            wanted.flags[l] = record.flags[l];
            count(counts, "flags excused within 8 units");
        }
    }
    if wanted != record || transient as u32 != flag {
        return Err(format!("election: Rust {wanted:?} {transient}, program {record:?} {flag}"));
    }
    compare_time(f.slots, &record, counts)?;
    compare_write(&record, rng, counts)?;
    compare_send(f, &record, flag, rng, counts)?;
    compare_energies(f, &x, &encoder, &record, rng, counts)?;
    Ok(record)
}

/// A turn is the election and time grid that were compared before and the Rust's writing, in one call: the same record, flag, times, bytes and ends.
fn compare_send(f: &Frame, record: &Record, flag: u32, rng: &mut Rng, counts: &mut Counts) -> Result<(), String> {
    let before: Vec<u8> = (0..rng.below(9)).map(|_| rng.next() as u8).collect();
    let start = rng.below(8 * before.len() + 4) as u64;
    let old = Turn { position: start, border: f.previous, transient: 99, record: OLD, times: OLD_TIMES };
    let mut wanted = Turn { transient: flag, record: *record, ..old };
    let mut expected = before.clone();
    port::derive_time_grid(f.slots as u64, record, &mut wanted.times);
    let number;
    (number, wanted.position) = rust_write(record, &mut expected, start);
    wanted.border = wanted.times.t_e[record.numbers[1] as usize] as i32;
    if number != 0 {
        wanted = old;
    }
    let (mut turn, mut bytes) = (old, before);
    let code = port::send_frame(&f.x, &f.high, &f.low, f.variable as u32, f.slots as u64, &mut bytes, &mut turn);
    count(counts, if number == 0 { "turns" } else { "turns refused for room" });
    if code != number || turn != wanted || bytes != expected {
        return Err(format!("turn at {start}: {number} {wanted:?} wanted, program {code} {turn:?}; bytes {bytes:02x?} for {expected:02x?}"));
    }
    Ok(())
}

/// Energies of a record over a frame, with room to spare, exactly enough, and one number short; and their values.
fn compare_energies(
    f: &Frame, x: &[[Complex; 64]], encoder: &SbrEncoder, record: &Record, rng: &mut Rng, counts: &mut Counts,
) -> Result<(), String> {
    let grid = grid_of(record);
    let time = match derive_time_grid(&grid, f.slots as i32) {
        Ok(t) => t,
        Err(_) => return Ok(()),
    };
    let rows = encoder.estimate(x, &grid, &time.t_e);
    let wanted: Vec<f64> = rows.concat();
    let room = wanted.len() + [0, 0, 1, 70][rng.below(4)];
    let (mut out, mut n) = (vec![OLD_NUMBER; room], 99);
    let code = port::estimate_envelopes(&f.x, &f.high, &f.low, f.slots as u64, record, &mut out, &mut n);
    count(counts, "energies");
    if code != 0 || n != wanted.len() as u64 {
        return Err(format!("energies: {} numbers wanted, program {code} {n}", wanted.len()));
    }
    for (i, (&a, &b)) in wanted.iter().zip(&out).enumerate() {
        if !same(a, b) {
            return Err(format!("energies: number {i}: Rust {a:e}, program {b:e}"));
        }
    }
    if out[wanted.len()..].iter().any(|&v| v != OLD_NUMBER) {
        return Err("energies: a number past the rows is touched".into());
    }
    if rng.one_in(8) {
        let mut short = vec![OLD_NUMBER; wanted.len() - 1];
        let mut n = 99;
        let code = port::estimate_envelopes(&f.x, &f.high, &f.low, f.slots as u64, record, &mut short, &mut n);
        count(counts, "energies refused for room");
        if code != 4 || n != 99 || short.iter().any(|&v| v != OLD_NUMBER) {
            return Err(format!("energies one number short: {code} {n}"));
        }
    }
    quantise::compare(&rows, rng, counts)
}

/// Calls that must be refused, by the number given, and leave everything as it was.
fn compare_refusals(f: &Frame, rng: &mut Rng, counts: &mut Counts) -> Result<(), String> {
    let mut g = f.clone();
    let (mut slots, mut wanted) = (f.slots as u64, 0);
    let broken = |t: &mut Vec<u8>, rng: &mut Rng| match rng.below(4) {
        0 => t.clear(),
        1 => {
            let i = rng.below(t.len());
            t[i] = 65 + rng.below(190) as u8;
        }
        2 => t.reverse(),
        _ => {
            let last = t[t.len() - 1];
            t.push(last);
        }
    };
    if rng.one_in(2) {
        g.x.truncate(needed(f.slots) - 1 - rng.below(needed(f.slots)));
        wanted = 2;
    }
    if rng.one_in(2) {
        if rng.one_in(2) {
            broken(&mut g.high, rng);
        } else {
            broken(&mut g.low, rng);
        }
        wanted = 3;
    }
    if rng.one_in(3) {
        slots = [0, 14, 17, 272, 1 << 32 | 16, u64::MAX, rng.next() | 32][rng.below(7)];
        wanted = 1;
    }
    if wanted == 0 {
        return Ok(());
    }
    let (mut flag, mut record) = (99, OLD);
    let code = port::elect_grid(&g.x, &g.high, &g.low, g.previous, g.variable as u32, slots, &mut flag, &mut record);
    if code != wanted || flag != 99 || record != OLD {
        return Err(format!("election: refusal {wanted} wanted, program {code}; outputs {flag} {record:?}"));
    }
    let old = Turn { position: 3, border: g.previous, transient: 99, record: OLD, times: OLD_TIMES };
    let (mut turn, mut bytes) = (old, [0x5a; 8]);
    let code = port::send_frame(&g.x, &g.high, &g.low, g.variable as u32, slots, &mut bytes, &mut turn);
    if code != wanted || turn != old || bytes != [0x5a; 8] {
        return Err(format!("turn: refusal {wanted} wanted, program {code}; {turn:?}"));
    }
    let (mut out, mut n) = (vec![OLD_NUMBER; 8], 99);
    let code = port::estimate_envelopes(&g.x, &g.high, &g.low, slots, &Record { numbers: [0; 9], ..OLD }, &mut out, &mut n);
    if code != wanted || n != 99 || out.iter().any(|&v| v != OLD_NUMBER) {
        return Err(format!("energies: refusal {wanted} wanted, program {code}"));
    }
    count(counts, ["", "refused by 1", "refused by 2", "refused by 3"][wanted as usize]);
    Ok(())
}

// ---- time grids and writing

fn class_uses(class: u32) -> (bool, bool) {
    (class >= 2, class % 2 == 1)
}

fn compare_time(slots: usize, r: &Record, counts: &mut Counts) -> Result<(), String> {
    let n = r.numbers;
    let mut t = OLD_TIMES;
    let code = port::derive_time_grid(slots as u64, r, &mut t);
    let (lead, trail) = class_uses(n[0]);
    let byte_above = (lead && n[3] > 3) || (trail && n[4] > 3);
    let exceeds = n[1] > 5 || n[5] > 4 || n[6] > 4;
    if byte_above || exceeds {
        count(counts, "time grids refused by the record's limits");
        return if code == 6 && t == OLD_TIMES { Ok(()) } else { Err(format!("time grid of {r:?}: 6 wanted, program {code}")) };
    }
    match derive_time_grid(&grid_of(r), slots as i32) {
        Ok(time) => {
            count(counts, "time grids");
            let wanted = times_of(&time);
            if code != 0 || t != wanted {
                return Err(format!("time grid of {r:?}, {slots} slots: Rust {wanted:?}, program {code} {t:?}"));
            }
        }
        Err(_) => {
            count(counts, "time grids refused");
            if code != 6 || t != OLD_TIMES {
                return Err(format!("time grid of {r:?}, {slots} slots: 6 wanted, program {code} {t:?}"));
            }
        }
    }
    Ok(())
}

/// Writes what the Rust writes of a record: its bits, the rest of the byte in which they end clear, every other bit as it was. Answers the number of the
/// refusal, or 0, and the position after the bits.
fn rust_write(r: &Record, bytes: &mut [u8], start: u64) -> (u32, u64) {
    let mut writer = BitWriter::default();
    let writes = r.numbers[5] <= 4 && r.numbers[6] <= 4 && r.numbers[1] <= 5 && oracle::sbr_writer::write_grid(&mut writer, &grid_of(r)).is_ok();
    match writes.then(|| oracle::put(bytes, start, &writer)) {
        None => (5, start),
        Some(None) => (4, start),
        Some(Some(end)) => (0, end),
    }
}

fn compare_write(r: &Record, rng: &mut Rng, counts: &mut Counts) -> Result<(), String> {
    let len = rng.below(9);
    let before: Vec<u8> = (0..len).map(|_| rng.next() as u8).collect();
    let start = if rng.one_in(20) { rng.next() } else { rng.below(8 * len + 4) as u64 };
    let (mut bytes, mut position) = (before.clone(), start);
    let code = port::write_grid(&mut bytes, &mut position, r);
    let mut expected = before;
    let (wanted, end) = rust_write(r, &mut expected, start);
    count(counts, ["writes", "", "", "", "writes refused for room", "writes refused"][wanted as usize]);
    if wanted == 0 && end % 8 == 0 {
        count(counts, "writes that fill their last byte");
    }
    if code != wanted || position != end || bytes != expected {
        return Err(format!("writing {r:?} at {start} of {len} bytes: {wanted} wanted, program {code}, position {position}, bytes {bytes:02x?} for {expected:02x?}"));
    }
    Ok(())
}

/// A record with small fields, or with any bytes.
fn any_record(rng: &mut Rng) -> Record {
    let wild = rng.one_in(4);
    let byte = |rng: &mut Rng, small: usize| if wild && rng.one_in(3) { rng.next() as u8 } else { rng.below(small) as u8 };
    let class = rng.below(4) as u32;
    let (n0, n1) = (rng.below(5) as u32, rng.below(5) as u32);
    let fitting = [1 + rng.below(5) as u32, n1 + 1, n0 + 1, n0 + n1 + 1][class as usize];
    let num_env = if rng.one_in(6) { rng.below(7) as u32 } else { fitting };
    let noise = if rng.one_in(8) { rng.below(4) as u32 } else { 1 + (num_env > 1) as u32 };
    Record {
        numbers: [
            class, num_env, noise, byte(rng, 5).into(), byte(rng, 5).into(), if rng.one_in(30) { 4 + rng.below(3) as u32 } else { n0 }.min(4),
            n1, byte(rng, 7).into(), 0,
        ],
        flags: std::array::from_fn(|_| rng.below(2) as u8),
        rel_0: std::array::from_fn(|_| byte(rng, 5)),
        rel_1: std::array::from_fn(|_| byte(rng, 5)),
    }
}

/// Every class, count, border byte and pointer that is small, with a few lists each.
fn all_records(rng: &mut Rng, step: usize, counts: &mut Counts) -> Result<(), String> {
    let mut i = rng.below(step);
    let total = 4 * 7 * 3 * 5 * 5 * 5 * 5 * 8;
    while i < total {
        let mut k = i;
        let mut digit = |base: usize| {
            let d = k % base;
            k /= base;
            d as u32
        };
        let numbers = [digit(4), digit(7), digit(3), digit(5), digit(5), digit(5), digit(5), digit(8), 0];
        let r = Record {
            numbers,
            flags: std::array::from_fn(|_| rng.below(2) as u8),
            rel_0: std::array::from_fn(|_| rng.below(4) as u8),
            rel_1: std::array::from_fn(|_| rng.below(4) as u8),
        };
        compare_time(15 + rng.below(2), &r, counts)?;
        compare_write(&r, rng, counts)?;
        i += step;
    }
    Ok(())
}

// ---- reading

fn compare_read(bytes: &[u8], from: Place, slots: u64, counts: &mut Counts) -> Result<(), String> {
    let (mut place, mut r, mut t) = (from, OLD, OLD_TIMES);
    let code = port::read_grid(bytes, slots, &mut place, &mut r, &mut t);
    let wanted = if slots != 15 && slots != 16 {
        Err(1)
    } else {
        let mut reader = BitReader::new(bytes, from.position.min(1 << 40) as usize);
        match SbrGrid::parse(&mut reader) {
            Err(_) => Err(if reader.ended { 7 } else { 8 }),
            Ok(g) => match derive_time_grid(&g, slots as i32) {
                Err(_) => Err(6),
                Ok(time) if time.t_e[0] as i64 + slots as i64 != from.border as i64 => Err(9),
                Ok(time) => {
                    // the mark and the envelope count are the Rust's, the flag's rule is the order's
                    let after = Place {
                        position: reader.position() as u64,
                        border: *time.t_e.last().unwrap(),
                        attack: (time.l_a == time.t_e.len() as i32 - 1) as u32,
                        begins: (from.attack != 0) as u32,
                    };
                    Ok((record_of(&g), times_of(&time), after))
                }
            },
        }
    };
    let found = match wanted {
        Err(number) => {
            count(counts, ["", "readings refused by 1", "", "", "", "", "readings refused by 6", "readings refused by 7", "readings refused by 8", "readings refused by 9"][number as usize]);
            code == number && place == from && r == OLD && t == OLD_TIMES
        }
        Ok((record, times, after)) => {
            count(counts, "readings");
            if after.attack == 1 {
                count(counts, "readings of frames that mark an attack at their very end");
            }
            if after.begins == 1 {
                count(counts, "readings of frames that begin on an attack");
            }
            code == 0 && r == record && t == times && place == after
        }
    };
    if found {
        Ok(())
    } else {
        Err(format!("reading {bytes:02x?} from {from:?}, {slots} slots: {wanted:?} wanted, program {code} {r:?} {t:?} {place:?}"))
    }
}

fn any_reading(rng: &mut Rng, counts: &mut Counts) -> Result<(), String> {
    let mut bytes: Vec<u8> = (0..rng.below(7)).map(|_| rng.next() as u8).collect();
    let slots = if rng.one_in(20) { rng.below(300) as u64 } else { 15 + rng.below(2) as u64 };
    let mut start = if rng.one_in(30) { rng.next() } else { rng.below(8 * bytes.len() + 3) as u64 };
    if rng.one_in(2) {
        let r = any_record(rng);
        bytes = (0..6).map(|_| rng.next() as u8).collect();
        start = rng.below(20) as u64;
        let mut p = start;
        port::write_grid(&mut bytes, &mut p, &r);
        bytes.truncate(1 + rng.below(6));
    }
    let border = if rng.one_in(8) { rng.next() as i32 } else { slots as i32 + rng.below(4) as i32 };
    // any number but 0 is a set flag, also one whose low bits are 0
    let attack = [0, 1, 2, 7, 256, 1 << 31, u32::MAX, rng.next() as u32][rng.below(8)];
    compare_read(&bytes, Place { position: start, border, attack, begins: 77 }, slots, counts)
}

// ---- the run

/// The frame with as many samples as possible made zero while it still differs.
fn smallest(f: &Frame, seed: u64) -> Frame {
    let differs = |g: &Frame| compare_frame(g, &mut Rng(seed), &mut Counts::new()).is_err();
    let mut best = f.clone();
    best.x.truncate(needed(best.slots));
    if !differs(&best) {
        return f.clone();
    }
    for width in [1280, 128, 2] {
        for from in (0..best.x.len()).step_by(width) {
            let mut g = best.clone();
            let to = (from + width).min(g.x.len());
            if g.x[from..to].iter().all(|&v| v == 0.0) {
                continue;
            }
            g.x[from..to].fill(0.0);
            if differs(&g) {
                best = g;
            }
        }
    }
    best
}

fn show(f: &Frame) {
    println!("slots {}, previous border {}, variable_borders {}", f.slots, f.previous, f.variable);
    println!("high {:?}\nlow {:?}", f.high, f.low);
    for (i, v) in f.x.iter().enumerate().filter(|(_, v)| v.to_bits() != 0) {
        println!("column {} band {} {}: {v:e} ({:016x})", i / 128, i % 128 / 2, ["re", "im"][i % 2], v.to_bits());
    }
}

fn fail(what: String, seed: u64, f: Option<(&Frame, u64)>) -> ! {
    println!("DIFFERENCE (seed {seed}): {what}");
    if let Some((f, s)) = f {
        show(&smallest(f, s));
    }
    std::process::exit(1)
}

/// Every slot count, lead, list of onsets, switch and evenness, each with several tables.
fn all_cases(rng: &mut Rng, seed: u64, tables: usize, counts: &mut Counts) {
    for slots in 15..=16 {
        let mut lists: Vec<Vec<usize>> = vec![vec![]];
        for a in 4..slots {
            lists.push(vec![a]);
            for b in a + 4..slots {
                lists.push(vec![a, b]);
                for c in b + 4..slots {
                    lists.push(vec![a, b, c]);
                }
            }
        }
        for lead in 0..4 {
            for onsets in &lists {
                for variable in [true, false] {
                    for even in [true, false] {
                        for _ in 0..tables {
                            let f = frames::with_onsets(rng, slots, lead, onsets, variable, even);
                            let s = rng.next();
                            if let Err(e) = compare_frame(&f, &mut Rng(s), counts) {
                                fail(e, seed, Some((&f, s)));
                            }
                            count(counts, "cases of slots, lead, onsets, switch, evenness");
                        }
                    }
                }
            }
        }
    }
}

fn work(seed: u64, checks: u64, step: usize, tables: usize) -> Counts {
    let mut rng = Rng(seed);
    let mut counts = Counts::new();
    all_cases(&mut rng, seed, tables, &mut counts);
    let listed = all_records(&mut rng, step, &mut counts).and_then(|_| quantise::all_places(&mut rng, &mut counts));
    if let Err(e) = listed {
        fail(e, seed, None);
    }
    for _ in 0..checks {
        let f = frames::random(&mut rng);
        let s = rng.next();
        match compare_frame(&f, &mut Rng(s), &mut counts) {
            Err(e) => fail(e, seed, Some((&f, s))),
            Ok(_) => count(&mut counts, "random frames"),
        }
        let r = any_record(&mut rng);
        let at_large = compare_time(f.slots, &r, &mut counts)
            .and_then(|_| compare_write(&r, &mut rng, &mut counts))
            .and_then(|_| any_reading(&mut rng, &mut counts))
            .and_then(|_| quantise::compare(&[quantise::any_energies(&mut rng)], &mut rng, &mut counts))
            .and_then(|_| compare_refusals(&f, &mut rng, &mut counts));
        if let Err(e) = at_large {
            fail(e, seed, None);
        }
    }
    counts
}

fn main() {
    let args: Vec<String> = std::env::args().skip(1).collect();
    let long = match args.first().map(String::as_str) {
        None | Some("short") => false,
        Some("long") => true,
        _ => {
            eprintln!("usage: compare [short|long] [SEED]");
            std::process::exit(2);
        }
    };
    let drawn = std::time::SystemTime::now().duration_since(std::time::UNIX_EPOCH).unwrap().as_nanos() as u64;
    let seed: u64 = args.get(1).map_or(drawn, |s| s.parse().expect("SEED is a number"));
    let threads = std::thread::available_parallelism().map_or(1, |n| n.get());
    let (checks, step, tables) = if long { (10_000_000 / threads as u64, 1, 8) } else { (150_000, 7, 1) };
    println!("compare: seed {seed}, {threads} threads");
    let handles: Vec<_> = (0..threads as u64)
        .map(|i| std::thread::spawn(move || work(seed.wrapping_add(i.wrapping_mul(0x5851_f42d_4c95_7f2d)), checks, step, tables)))
        .collect();
    let mut all = Counts::new();
    for h in handles {
        for (what, n) in h.join().unwrap() {
            add(&mut all, what, n);
        }
    }
    for (what, n) in &all {
        println!("{n:>12} {what}");
    }
    println!("compare: no difference");
}
