//! The Rust's own parser, time grid, elections and energies behind a driver. `sbr_grid.rs` and `sbr_time_grid.rs` are taken whole.
//! usage: oracle gridlist < CASES    each case: two bytes of length, low byte first, and an input of `gridlist`,
//! of which the last may end early; prints each listing and a line with a dot.
//!        oracle listing < INPUT     prints the listing of one input of `gridlist`.
//!        oracle elections < CASES   each case as tools/election_cases.py says; prints a line for each.
//!        oracle grids < CASES       each case as tools/grid_cases.py says; prints a line for each.
//!        oracle runs < CASES        each run as tools/run_cases.py says; prints a line for each turn and reading.
//!        oracle readings < CASES    each case as tools/reading_cases.py says; prints a line for each reading.
use std::io::{Read, Write};

use oracle::sbr_encoder::SbrEncoder;
use oracle::sbr_qmf::Complex;
use oracle::{put, sbr_grid, sbr_time_grid};
use oxideav_core::bits::{BitReader, BitWriter};
extern crate oxideav_core;

fn spaced(xs: &[i32]) -> String {
    xs.iter().map(|x| x.to_string()).collect::<Vec<_>>().join(" ")
}

/// A record with its time grid.
struct Reading {
    grid: sbr_grid::SbrGrid,
    time: sbr_time_grid::TimeGrid,
    position: usize,
    border: i32,
}

/// The frame at a position, with the position and the border after it, or the number of its refusal.
fn read(bytes: &[u8], at: usize, slots: u64, border: i32) -> std::result::Result<Reading, u32> {
    if slots != 15 && slots != 16 {
        return Err(1);
    }
    let slots = slots as i32;
    let mut reader = BitReader::new(bytes, at);
    let grid = match sbr_grid::SbrGrid::parse(&mut reader) {
        Ok(g) => g,
        Err(_) => return Err(if reader.ended { 7 } else { 8 }),
    };
    let time = sbr_time_grid::derive_time_grid(&grid, slots).map_err(|_| 6u32)?;
    if i64::from(time.t_e[0]) != i64::from(border) - i64::from(slots) {
        return Err(9);
    }
    let border = *time.t_e.last().unwrap();
    Ok(Reading { grid, time, position: reader.position(), border })
}

fn letters(flags: &[bool]) -> String {
    flags.iter().map(|&f| if f { 'H' } else { 'L' }).collect()
}

fn frame_text(grid: &sbr_grid::SbrGrid, time: &sbr_time_grid::TimeGrid) -> String {
    format!("{:?} {} / {} / {} / {}", grid.frame_class, spaced(&time.t_e), spaced(&time.t_q), time.l_a, letters(&grid.freq_res))
}

fn listing(input: &[u8], out: &mut String) {
    if input.len() < 3 {
        out.push_str("0 refused 7\n");
        return;
    }
    let (slots, mut border, mut at) = (u64::from(input[0]), i32::from(input[1]), 0);
    for i in 0..input[2] {
        match read(&input[3..], at, slots, border) {
            Ok(r) => {
                out.push_str(&format!("{i} {}\n", frame_text(&r.grid, &r.time)));
                at = r.position;
                border = r.border;
            }
            Err(number) => {
                out.push_str(&format!("{i} refused {number}\n"));
                return;
            }
        }
    }
}

fn one_listing(all: &[u8]) -> String {
    let mut out = String::new();
    listing(all, &mut out);
    out
}

fn gridlist(all: &[u8]) -> String {
    let mut out = String::new();
    let mut rest = all;
    while rest.len() >= 2 {
        let n = (rest[0] as usize + 256 * rest[1] as usize).min(rest.len() - 2);
        listing(&rest[2..2 + n], &mut out);
        out.push_str(".\n");
        rest = &rest[2 + n..];
    }
    out
}

/// What is left of an input. Numbers have their low byte first.
struct Input<'a>(&'a [u8]);

impl<'a> Input<'a> {
    fn bytes(&mut self, n: usize) -> &'a [u8] {
        let (head, rest) = self.0.split_at(n);
        self.0 = rest;
        head
    }

    fn number(&mut self, n: usize) -> u64 {
        self.bytes(n).iter().rev().fold(0, |v, &b| v * 256 + u64::from(b))
    }

    fn byte(&mut self) -> usize {
        self.number(1) as usize
    }

    fn table(&mut self) -> &'a [u8] {
        let n = self.byte();
        self.bytes(n)
    }

    fn samples(&mut self) -> Vec<f64> {
        let mut x = vec![0.0; self.number(2) as usize];
        for _ in 0..self.number(2) {
            let i = self.number(2) as usize;
            x[i] = f64::from_bits(self.number(8));
        }
        x
    }
}

/// What both kinds of cases hand in.
struct Frame<'a> {
    slots: u64,
    high: &'a [u8],
    low: &'a [u8],
    x: Vec<f64>,
}

impl<'a> Frame<'a> {
    fn read(input: &mut Input<'a>) -> Self {
        let slots = input.number(8);
        let (high, low) = (input.table(), input.table());
        Frame { slots, high, low, x: input.samples() }
    }

    /// The refusals that both calls share, in their order: 1, 3, 2.
    fn refusal(&self) -> Option<u32> {
        let rising = |t: &[u8]| t.windows(2).all(|w| w[0] < w[1]);
        if self.slots != 15 && self.slots != 16 {
            return Some(1);
        }
        let (high, low) = (self.high, self.low);
        if high.len() < 2 || !rising(high) || high[high.len() - 1] > 64 {
            return Some(3);
        }
        if !rising(low) || !low.iter().all(|b| high.contains(b)) {
            return Some(3);
        }
        if low.first() != high.first() || low.last() != high.last() {
            return Some(3);
        }
        let needed = if self.slots == 16 { 6400 } else { 6144 };
        (self.x.len() < needed).then_some(2)
    }

    fn columns(&self) -> Vec<[Complex; 64]> {
        let column = |c: &[f64]| std::array::from_fn(|k| Complex { re: c[2 * k], im: c[2 * k + 1] });
        self.x.chunks_exact(128).map(column).collect()
    }

    fn encoder(&self, variable: bool) -> SbrEncoder {
        SbrEncoder::new(self.slots as usize, variable, self.high, self.low)
    }
}

fn blanks(xs: &[u8]) -> String {
    xs.iter().map(|x| format!(" {x}")).collect()
}

fn election(frame: &Frame, border: i32, variable: bool) -> String {
    if let Some(number) = frame.refusal() {
        return format!("refused {number}");
    }
    // below this the Rust wraps; the lead is 0 all the same
    let border = border.max(i32::MIN + 16);
    let (g, transient) = frame.encoder(variable).elect(&frame.columns(), border);
    format!(
        "{:?} {} b0 {} b1 {} rel0{} rel1{} p {} noise {} amp {} transient {}",
        g.frame_class,
        letters(&g.freq_res),
        g.var_bord_0,
        g.var_bord_1,
        blanks(&g.rel_bord_0),
        blanks(&g.rel_bord_1),
        g.pointer,
        g.num_noise,
        g.amp_res_override as u8,
        transient as u8
    )
}

/// A record as it is handed in: lists of fixed length with their counts.
struct Record<'a> {
    class: usize,
    num_env: usize,
    num_noise: usize,
    freq_res: &'a [u8],
    var_bord: [u8; 2],
    num_rel: [usize; 2],
    rel_bord: [&'a [u8]; 2],
    pointer: usize,
}

impl<'a> Record<'a> {
    fn read(input: &mut Input<'a>) -> Self {
        let (class, num_env, num_noise) = (input.byte(), input.byte(), input.byte());
        let freq_res = input.bytes(5);
        let var_bord = [input.byte() as u8, input.byte() as u8];
        let (num_rel_0, rel_bord_0) = (input.byte(), input.bytes(4));
        let (num_rel_1, rel_bord_1) = (input.byte(), input.bytes(4));
        Record {
            class,
            num_env,
            num_noise,
            freq_res,
            var_bord,
            num_rel: [num_rel_0, num_rel_1],
            rel_bord: [rel_bord_0, rel_bord_1],
            pointer: input.byte(),
        }
    }

    /// The Rust's record, where the counts are within the lists.
    fn listed(&self) -> Option<sbr_grid::SbrGrid> {
        use sbr_grid::FrameClass::{FixFix, FixVar, VarFix, VarVar};
        if self.num_env > 5 || self.num_rel[0] > 4 || self.num_rel[1] > 4 {
            return None;
        }
        Some(sbr_grid::SbrGrid {
            frame_class: [FixFix, FixVar, VarFix, VarVar][self.class],
            num_env: self.num_env,
            num_noise: self.num_noise,
            freq_res: self.freq_res[..self.num_env].iter().map(|&f| f != 0).collect(),
            var_bord_0: self.var_bord[0],
            var_bord_1: self.var_bord[1],
            rel_bord_0: self.rel_bord[0][..self.num_rel[0]].to_vec(),
            rel_bord_1: self.rel_bord[1][..self.num_rel[1]].to_vec(),
            pointer: self.pointer as u32,
            amp_res_override: false,
        })
    }

    /// The same, where each border byte that the class uses is at most 3.
    fn grid(&self) -> Option<sbr_grid::SbrGrid> {
        let (first, second) = (self.class >= 2, self.class % 2 == 1);
        if first && self.var_bord[0] > 3 || second && self.var_bord[1] > 3 {
            return None;
        }
        self.listed()
    }
}

/// The rows one after another, or the number of the refusal.
fn rows(frame: &Frame, record: &Record, room: usize) -> std::result::Result<Vec<f64>, u32> {
    if let Some(number) = frame.refusal() {
        return Err(number);
    }
    let grid = record.grid().ok_or(6u32)?;
    let time = sbr_time_grid::derive_time_grid(&grid, frame.slots as i32).map_err(|_| 6u32)?;
    let all = frame.encoder(false).estimate(&frame.columns(), &grid, &time.t_e).concat();
    if room < all.len() {
        return Err(4);
    }
    Ok(all)
}

fn energies(frame: &Frame, record: &Record, room: usize) -> String {
    let bits = |x: &f64| if x.is_nan() { " nan".to_string() } else { format!(" {:016x}", x.to_bits()) };
    match rows(frame, record, room) {
        Ok(all) => format!("{}{} kept", all.len(), all.iter().map(bits).collect::<String>()),
        Err(number) => format!("refused {number} kept"),
    }
}

fn elections(all: &[u8]) -> String {
    let mut out = String::new();
    let mut input = Input(all);
    while !input.0.is_empty() {
        let kind = input.byte();
        let frame = Frame::read(&mut input);
        let line = if kind == 1 {
            let border = input.number(4) as u32 as i32;
            election(&frame, border, input.byte() != 0)
        } else {
            let record = Record::read(&mut input);
            energies(&frame, &record, input.number(2) as usize)
        };
        out.push_str(&line);
        out.push('\n');
    }
    out
}

fn hex(bytes: &[u8]) -> String {
    bytes.iter().map(|b| format!("{b:02x}")).collect()
}

fn time_line(record: &Record, slots: u64) -> String {
    if slots != 15 && slots != 16 {
        return "refused 1".to_string();
    }
    match record.grid().map(|g| sbr_time_grid::derive_time_grid(&g, slots as i32)) {
        Some(Ok(t)) => format!("time {} / {} / {}", spaced(&t.t_e), spaced(&t.t_q), t.l_a),
        _ => "refused 6".to_string(),
    }
}

fn write_line(record: &Record, bytes: &mut [u8], lent: usize, position: u64) -> String {
    let mut writer = BitWriter::default();
    let fits = record.num_env <= 5 && record.num_rel.iter().all(|&n| n <= 4);
    let written = fits && record.listed().is_some_and(|g| oracle::sbr_writer::write_grid(&mut writer, &g).is_ok());
    let text = match (written, put(&mut bytes[..if written { lent } else { 0 }], position, &writer)) {
        (false, _) => "refused 5".to_string(),
        (true, None) => "refused 4".to_string(),
        (true, Some(next)) => format!("written to {next}"),
    };
    format!("{text} bytes {}", hex(bytes))
}

fn grids(all: &[u8]) -> String {
    let mut out = String::new();
    let mut input = Input(all);
    while !input.0.is_empty() {
        let kind = input.byte();
        let record = Record::read(&mut input);
        let line = if kind == 1 {
            time_line(&record, input.number(8))
        } else {
            let lent = input.number(2) as usize;
            let mut bytes = [input.byte() as u8; 12];
            write_line(&record, &mut bytes, lent, input.number(8))
        };
        out.push_str(&line);
        out.push('\n');
    }
    out
}

/// Where a run stands: the border of the last frame, whether that frame marks an attack at its very end, and the position after it.
#[derive(Clone, Copy)]
struct Place {
    border: i32,
    attack: bool,
    position: u64,
}

/// Whether a frame marks an attack at its very end: its mark is its envelope count. The Rust has no such rule; it is the order's.
fn ends_on_attack(grid: &sbr_grid::SbrGrid, time: &sbr_time_grid::TimeGrid) -> bool {
    i64::from(time.l_a) == grid.freq_res.len() as i64
}

/// A turn: the text of the frame that it sends and the place after it, or the number of its refusal.
fn turn(frame: &Frame, variable: bool, bytes: &mut [u8], place: &mut Place) -> std::result::Result<String, u32> {
    if let Some(number) = frame.refusal() {
        return Err(number);
    }
    let (grid, transient) = frame.encoder(variable).elect(&frame.columns(), place.border);
    let time = sbr_time_grid::derive_time_grid(&grid, frame.slots as i32).map_err(|_| 6u32)?;
    let mut writer = BitWriter::default();
    oracle::sbr_writer::write_grid(&mut writer, &grid).map_err(|_| 5u32)?;
    let position = put(bytes, place.position, &writer).ok_or(4u32)?;
    let begins = place.attack;
    *place = Place { border: *time.t_e.last().unwrap(), attack: ends_on_attack(&grid, &time), position };
    let rows = frame.encoder(variable).estimate(&frame.columns(), &grid, &time.t_e).concat().len();
    Ok(format!("sent {} rows {rows}{} transient {}{}", frame_text(&grid, &time), begins_text(begins), transient as u8, place_text(place)))
}

fn begins_text(begins: bool) -> &'static str {
    if begins {
        " begins on an attack"
    } else {
        ""
    }
}

fn place_text(place: &Place) -> String {
    format!(" at {} border {} attack {}", place.position, place.border, place.attack as u8)
}

/// How many numbers the rows of a frame hold, by the energies of silence.
fn row_count(slots: u64, high: &[u8], low: &[u8], r: &Reading) -> usize {
    let frame = Frame { slots, high, low, x: vec![0.0; 6400] };
    frame.encoder(false).estimate(&frame.columns(), &r.grid, &r.time.t_e).concat().len()
}

/// A list of turns, readings and changed bytes.
fn run(input: &mut Input, out: &mut String) {
    let steps = input.number(2);
    let start = Place { border: input.number(4) as u32 as i32, attack: false, position: input.number(8) };
    let (high, low) = (input.table(), input.table());
    let mut bytes = vec![input.byte() as u8; 2000];
    let (mut sender, mut receiver) = (start, start);
    let (mut sent, mut frames_read) = (Vec::new(), 0);
    for _ in 0..steps {
        let kind = input.byte();
        let lent = input.number(2) as usize;
        if kind == 3 {
            bytes[lent] = input.byte() as u8;
            out.push_str("byte changed\n");
            continue;
        }
        let slots = input.number(8);
        if kind == 1 {
            let variable = input.byte() != 0;
            let frame = Frame { slots, high, low, x: input.samples() };
            match turn(&frame, variable, &mut bytes[..lent], &mut sender) {
                Ok(line) => {
                    out.push_str(&line);
                    sent.push(line[5..line.find(" transient").unwrap()].to_string());
                }
                Err(number) => out.push_str(&format!("turn refused {number}")),
            }
        } else {
            match read(&bytes[..lent], receiver.position as usize, slots, receiver.border) {
                Ok(r) => {
                    let begins = begins_text(receiver.attack);
                    receiver = Place { border: r.border, attack: ends_on_attack(&r.grid, &r.time), position: r.position as u64 };
                    let text = format!("{} rows {}{begins}", frame_text(&r.grid, &r.time), row_count(slots, high, low, &r));
                    let verdict = if sent.get(frames_read) == Some(&text) { "as sent" } else { "NOT AS SENT" };
                    out.push_str(&format!("read {text}{} {verdict}", place_text(&receiver)));
                    frames_read += 1;
                }
                Err(number) => out.push_str(&format!("reading refused {number}")),
            }
        }
        out.push('\n');
    }
    out.push_str(&format!("run: {} sent, {frames_read} read, bytes {}\n", sent.len(), hex(&bytes)));
}

/// A list of readings of one range, each from what the last one left.
fn listened(input: &mut Input, out: &mut String) {
    let readings = input.byte();
    let mut place = Place { border: input.number(4) as u32 as i32, attack: input.byte() != 0, position: input.number(8) };
    let size = input.byte();
    let bytes = input.bytes(size);
    for _ in 0..readings {
        let (slots, lent) = (input.number(8), input.number(2) as usize);
        match read(&bytes[..lent.min(size)], place.position as usize, slots, place.border) {
            Ok(r) => {
                out.push_str(&format!("read {}{}", frame_text(&r.grid, &r.time), begins_text(place.attack)));
                place = Place { border: r.border, attack: ends_on_attack(&r.grid, &r.time), position: r.position as u64 };
            }
            Err(number) => out.push_str(&format!("reading refused {number}")),
        }
        out.push_str(&place_text(&place));
        out.push('\n');
    }
    out.push_str(".\n");
}

/// What each part of an input comes to, one after another.
fn each(all: &[u8], one: fn(&mut Input, &mut String)) -> String {
    let mut out = String::new();
    let mut input = Input(all);
    while !input.0.is_empty() {
        one(&mut input, &mut out);
    }
    out
}

fn runs(all: &[u8]) -> String {
    each(all, run)
}

fn readings(all: &[u8]) -> String {
    each(all, listened)
}

fn main() {
    let args: Vec<String> = std::env::args().collect();
    let lines = match args.get(1).map(String::as_str) {
        Some("gridlist") if args.len() == 2 => gridlist,
        Some("listing") if args.len() == 2 => one_listing,
        Some("elections") if args.len() == 2 => elections,
        Some("grids") if args.len() == 2 => grids,
        Some("runs") if args.len() == 2 => runs,
        Some("readings") if args.len() == 2 => readings,
        _ => {
            eprintln!("usage: oracle gridlist|listing|elections|grids|runs|readings < CASES");
            std::process::exit(2);
        }
    };
    let mut all = Vec::new();
    std::io::stdin().read_to_end(&mut all).unwrap();
    std::io::stdout().write_all(lines(&all).as_bytes()).unwrap();
}
