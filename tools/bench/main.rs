//! Speed of the program beside the Rust. See `run` for the usage.
#[path = "../compare/frames.rs"]
#[allow(dead_code)]
mod frames;
#[path = "../compare/port.rs"]
mod port;

use frames::{needed, Frame, Rng};
use oracle::sbr_encoder::{quantise_envelopes, SbrEncoder};
use oracle::sbr_grid::SbrGrid;
use oracle::sbr_qmf::Complex;
use oracle::sbr_time_grid::derive_time_grid;
use oxideav_core::bits::{BitReader, BitWriter};
use port::{Place, Record, Times, Turn};
use std::cell::RefCell;
use std::hint::black_box;
use std::time::Instant;

const NEW: Record = Record { numbers: [0; 9], flags: [0; 5], rel_0: [0; 4], rel_1: [0; 4] };
const NO_TIMES: Times = Times { t_e: [0; 6], t_q: [0; 3], l_a: 0 };

/// A frame in both forms, with the Rust's encoder for its tables.
struct Case {
    frame: Frame,
    columns: Vec<[Complex; 64]>,
    encoder: SbrEncoder,
    grid: SbrGrid,
    record: Record,
    t_e: Vec<i32>,
    bits: Vec<u8>,
    /// Where a host has the rows of the energies put.
    rows: RefCell<[f64; 320]>,
    /// The energies, a row for each envelope, and one after another.
    energies: Vec<Vec<f64>>,
    all_energies: Vec<f64>,
}

/// A frame with so many onsets. Means of quiet frames (gain 1) stay under 64, so that no resolution test passes early; loud ones (gain 10) lie above.
fn case(rng: &mut Rng, slots: usize, onsets: usize, wide: bool, gain: f64) -> Case {
    let (high, low): (Vec<u8>, Vec<u8>) = if wide {
        ((10..=64).collect(), (10..=64).step_by(2).collect())
    } else {
        ((16..=48).step_by(2).collect(), (16..=48).step_by(4).collect())
    };
    let mut list = Vec::new();
    let mut s = 4 + rng.below(slots - 4 - 4 * onsets.saturating_sub(1));
    for i in 0..onsets {
        list.push(s);
        let left = onsets - i - 1;
        if left > 0 {
            s += 4 + rng.below(slots - s - 4 - 4 * (left - 1)).min(3);
        }
    }
    let mut frame = frames::with_onsets(rng, slots, rng.clone().below(4), &list, true, rng.clone().below(2) == 0);
    frame.high = high;
    frame.low = low;
    let bands = frame.bands();
    frame.x = vec![0.0; needed(slots)];
    for c in 2..2 * (slots + 8) + 2 {
        let loud = list.contains(&((c - 2) / 2));
        for k in bands.clone() {
            let level = gain * if loud { 60.0 } else { 2.0 } * if k % 5 == 0 { 3.0 } else { 1.0 };
            frame.set(c, k, level * (0.9 + 0.2 * rng.unit()), level * 0.1 * rng.unit());
        }
    }
    let columns: Vec<[Complex; 64]> = frame
        .x
        .chunks(128)
        .map(|c| std::array::from_fn(|k| Complex { re: c[2 * k], im: c[2 * k + 1] }))
        .collect();
    let encoder = SbrEncoder::new(slots, true, &frame.high, &frame.low);
    let (grid, _) = encoder.elect(&columns, frame.previous);
    let t_e = derive_time_grid(&grid, slots as i32).unwrap().t_e;
    let mut record = NEW;
    let mut flag = 0;
    port::elect_grid(&frame.x, &frame.high, &frame.low, frame.previous, 1, slots as u64, &mut flag, &mut record);
    let mut bits = vec![0u8; 8];
    let mut at = 0;
    port::write_grid(&mut bits, &mut at, &record);
    let energies = encoder.estimate(&columns, &grid, &t_e);
    let all_energies = energies.concat();
    Case { frame, columns, encoder, grid, record, t_e, bits, rows: RefCell::new([0.0; 320]), energies, all_energies }
}

fn rust_elect(c: &Case) -> usize {
    black_box(&c.encoder.elect(&c.columns, c.frame.previous)).0.num_env
}

fn port_elect(c: &Case) -> usize {
    let (mut flag, mut record) = (0, NEW);
    let f = &c.frame;
    port::elect_grid(&f.x, &f.high, &f.low, f.previous, 1, f.slots as u64, &mut flag, &mut record);
    black_box(&record).numbers[1] as usize
}

fn rust_time(c: &Case) -> usize {
    black_box(&derive_time_grid(&c.grid, c.frame.slots as i32).unwrap()).t_e.len()
}

fn port_time(c: &Case) -> usize {
    let mut t = NO_TIMES;
    port::derive_time_grid(c.frame.slots as u64, &c.record, &mut t);
    black_box(&t).t_e[1] as usize
}

fn rust_write(c: &Case) -> usize {
    let mut w = BitWriter::default();
    oracle::sbr_writer::write_grid(&mut w, &c.grid).unwrap();
    black_box(&w).width as usize
}

fn port_write(c: &Case) -> usize {
    let (mut bytes, mut at) = ([0u8; 8], 3);
    port::write_grid(&mut bytes, &mut at, &c.record);
    black_box(&bytes)[0] as usize
}

fn rust_energies(c: &Case) -> usize {
    black_box(&c.encoder.estimate(&c.columns, &c.grid, &c.t_e)).len()
}

fn port_energies(c: &Case) -> usize {
    let (mut rows, mut n) = (c.rows.borrow_mut(), 0);
    let f = &c.frame;
    port::estimate_envelopes(&f.x, &f.high, &f.low, f.slots as u64, &c.record, &mut *rows, &mut n);
    black_box(&*rows)[0] as usize
}

fn rust_quantise(c: &Case, amp_res: bool) -> usize {
    black_box(&quantise_envelopes(black_box(&c.energies), amp_res)).len()
}

fn port_quantise(c: &Case, amp_res: bool) -> usize {
    let mut values = [0u8; 320];
    port::quantise_envelopes(black_box(&c.all_energies), amp_res as u32, &mut values);
    black_box(&values)[0] as usize
}

fn rust_frame(c: &Case) -> usize {
    let (grid, _) = c.encoder.elect(&c.columns, c.frame.previous);
    let time = derive_time_grid(&grid, c.frame.slots as i32).unwrap();
    let mut w = BitWriter::default();
    oracle::sbr_writer::write_grid(&mut w, &grid).unwrap();
    black_box(&w);
    black_box(&c.encoder.estimate(&c.columns, &grid, &time.t_e)).len()
}

fn port_frame(c: &Case) -> usize {
    port_elect(c) + port_time(c) + port_write(c) + port_energies(c)
}

/// The same frame as a host sends it: one call for election, time grid and writing, one for the energies.
fn port_turn(c: &Case) -> usize {
    let f = &c.frame;
    let mut turn = Turn { position: 3, border: f.previous, transient: 0, record: NEW, times: NO_TIMES };
    let (mut bytes, mut rows, mut n) = ([0u8; 8], c.rows.borrow_mut(), 0);
    port::send_frame(&f.x, &f.high, &f.low, 1, f.slots as u64, &mut bytes, &mut turn);
    black_box(&bytes);
    port::estimate_envelopes(&f.x, &f.high, &f.low, f.slots as u64, &turn.record, &mut *rows, &mut n);
    black_box(&*rows)[0] as usize
}

fn rust_read(c: &Case) -> usize {
    let mut reader = BitReader::new(&c.bits, 0);
    let g = SbrGrid::parse(&mut reader).unwrap();
    black_box(&derive_time_grid(&g, c.frame.slots as i32).unwrap()).t_e.len()
}

fn port_read(c: &Case) -> usize {
    let (mut place, mut r, mut t) = (Place { position: 0, border: c.frame.previous, attack: 0, begins: 0 }, NEW, NO_TIMES);
    port::read_grid(&c.bits, c.frame.slots as u64, &mut place, &mut r, &mut t);
    black_box(&(&r, &t)).1.t_e[1] as usize
}

/// Nanoseconds a call, over all cases, repeated.
fn nanos(f: fn(&Case) -> usize, cases: &[Case], repeats: usize) -> f64 {
    let start = Instant::now();
    let mut sum = 0;
    for _ in 0..repeats {
        for c in cases {
            sum += f(c);
        }
    }
    black_box(sum);
    start.elapsed().as_nanos() as f64 / (repeats * cases.len()) as f64
}

/// The middle of alternating runs, with the smallest and the largest ratio.
fn row(name: &str, rust: fn(&Case) -> usize, port: fn(&Case) -> usize, cases: &[Case], rounds: usize) {
    let repeats = (20_000_000.0 / (nanos(rust, cases, 1) * cases.len() as f64)).ceil().max(1.0) as usize;
    let mut both: Vec<(f64, f64)> = (0..rounds).map(|_| (nanos(rust, cases, repeats), nanos(port, cases, repeats))).collect();
    both.sort_by(|a, b| (a.0 / a.1).total_cmp(&(b.0 / b.1)));
    let (r, p) = both[rounds / 2];
    let ratio = |i: usize| both[i].0 / both[i].1;
    println!("{name:<58} {r:>10.0} {p:>10.0} {:>7.2}   {:.2} to {:.2}", r / p, ratio(0), ratio(rounds - 1));
}

fn main() {
    let rounds: usize = std::env::args().nth(1).map_or(15, |s| s.parse().expect("usage: bench [ROUNDS]"));
    println!("{:<58} {:>10} {:>10} {:>7}   spread", "", "Rust, ns", "here, ns", "ratio");
    let mut rng = Rng(1);
    for slots in [16, 15] {
        for (wide, tables) in [(true, "54 bands"), (false, "16 bands")] {
            for (gain, level) in [(1.0, "quiet"), (10.0, "loud")] {
                let what = format!("{slots} slots, {tables}, {level}");
                let mut mix = Vec::new();
                for onsets in 0..4 {
                    let cases: Vec<Case> = (0..4).map(|_| case(&mut rng, slots, onsets, wide, gain)).collect();
                    row(&format!("frame, {what}, {onsets} onsets"), rust_frame, port_frame, &cases, rounds);
                    mix.extend(cases);
                }
                row(&format!("frame, {what}, mix"), rust_frame, port_frame, &mix, rounds);
                row(&format!("frame as a turn, {what}, mix"), rust_frame, port_turn, &mix, rounds);
                row(&format!("election, {what}, mix"), rust_elect, port_elect, &mix, rounds);
                row(&format!("energies, {what}, mix"), rust_energies, port_energies, &mix, rounds);
                if slots == 16 {
                    row(&format!("quantising, coarse, {what}, mix"), |c| rust_quantise(c, true), |c| port_quantise(c, true), &mix, rounds);
                    row(&format!("quantising, fine, {what}, mix"), |c| rust_quantise(c, false), |c| port_quantise(c, false), &mix, rounds);
                }
                if wide && gain == 1.0 {
                    row(&format!("time grid, {slots} slots, mix"), rust_time, port_time, &mix, rounds);
                    row(&format!("writing, {slots} slots, mix"), rust_write, port_write, &mix, rounds);
                    row(&format!("reading, {slots} slots, mix"), rust_read, port_read, &mix, rounds);
                }
            }
        }
    }
    let memory: Vec<Case> = (0..1500).map(|i| case(&mut rng, 16, i % 4, true, 1.0)).collect();
    row("frame, 16 slots, 54 bands, quiet, from memory", rust_frame, port_frame, &memory, rounds);
    row("frame as a turn, 16 slots, 54 bands, quiet, from memory", rust_frame, port_turn, &memory, rounds);
}
