//! Random and structured frames, records and bit streams.

#[derive(Clone)]
pub struct Rng(pub u64);

impl Rng {
    pub fn next(&mut self) -> u64 {
        self.0 = self.0.wrapping_add(0x9e37_79b9_7f4a_7c15);
        let mut z = self.0;
        z = (z ^ (z >> 30)).wrapping_mul(0xbf58_476d_1ce4_e5b9);
        z = (z ^ (z >> 27)).wrapping_mul(0x94d0_49bb_1331_11eb);
        z ^ (z >> 31)
    }

    pub fn below(&mut self, n: usize) -> usize {
        (self.next() % n as u64) as usize
    }

    pub fn one_in(&mut self, n: usize) -> bool {
        self.below(n) == 0
    }

    /// From 0 up to, not including, 1.
    pub fn unit(&mut self) -> f64 {
        (self.next() >> 11) as f64 / (1u64 << 53) as f64
    }

    /// Any double of a class that rarely occurs by chance.
    pub fn odd(&mut self) -> f64 {
        match self.below(8) {
            0 => f64::NAN,
            1 => f64::INFINITY,
            2 => f64::NEG_INFINITY,
            3 => f64::from_bits(self.next() & 0x000f_ffff_ffff_ffff),
            4 => 1e154 * (0.5 + self.unit()),
            5 => 1e300 * self.unit(),
            6 => f64::from_bits(self.next()),
            _ => -0.0,
        }
    }
}

#[derive(Clone)]
pub struct Frame {
    pub slots: usize,
    pub high: Vec<u8>,
    pub low: Vec<u8>,
    pub previous: i32,
    pub variable: bool,
    pub x: Vec<f64>,
}

pub fn needed(slots: usize) -> usize {
    (2 * (slots + 8) + 2) * 128
}

impl Frame {
    pub fn set(&mut self, column: usize, band: usize, re: f64, im: f64) {
        let i = (column * 64 + band) * 2;
        self.x[i] = re;
        self.x[i + 1] = im;
    }

    pub fn bands(&self) -> std::ops::Range<usize> {
        self.high[0] as usize..self.high[self.high.len() - 1] as usize
    }
}

/// Band tables that the order admits: wide, narrow, one band, and any.
pub fn tables(rng: &mut Rng) -> (Vec<u8>, Vec<u8>) {
    let high: Vec<u8> = match rng.below(6) {
        0 => (0..=64).collect(),
        1 => {
            let a = rng.below(64) as u8;
            vec![a, a + 1 + rng.below((64 - a) as usize) as u8]
        }
        2 | 3 => {
            let mut t = vec![(8 + rng.below(24)) as u8];
            while (*t.last().unwrap() as usize) < 40 + rng.below(24) {
                let next = *t.last().unwrap() as usize + 1 + rng.below(3);
                t.push(next.min(64) as u8);
            }
            if t.len() < 2 {
                t.push(64);
            }
            t
        }
        _ => {
            let keep = 1 + rng.below(8);
            let mut t: Vec<u8> = (0..=64u8).filter(|_| rng.below(8) < keep).collect();
            while t.len() < 2 {
                t = (0..=64u8).filter(|_| rng.below(4) == 0).collect();
            }
            t
        }
    };
    let last = high.len() - 1;
    let keep = 1 + rng.below(4);
    let low = (0..=last).filter(|&i| i == 0 || i == last || rng.below(4) < keep - 1 || keep == 4).map(|i| high[i]).collect();
    (high, low)
}

fn border(rng: &mut Rng, slots: usize) -> i32 {
    match rng.below(10) {
        0 => (rng.next() as i32).max(i32::MIN + 16),
        1 => [i32::MIN + 16, i32::MAX, 0, -1, slots as i32 - 1, slots as i32 + 4][rng.below(6)],
        _ => (slots + rng.below(4)) as i32,
    }
}

fn empty(rng: &mut Rng) -> Frame {
    let slots = 15 + rng.below(2);
    let (high, low) = tables(rng);
    let extra = if rng.one_in(4) { rng.below(300) } else { 0 };
    let mut frame = Frame {
        slots,
        high,
        low,
        previous: border(rng, slots),
        variable: !rng.one_in(5),
        x: vec![0.0; needed(slots) + extra],
    };
    if rng.one_in(3) {
        // what no answer may depend on: columns 0 and 1, bands outside the table, numbers past the last column
        let inside = frame.bands();
        for i in 0..frame.x.len() {
            let (column, band) = (i / 128, i % 128 / 2);
            if column < 2 || i >= needed(slots) || !inside.contains(&band) {
                frame.x[i] = if rng.one_in(40) { rng.odd() } else { 1000.0 * rng.unit() };
            }
        }
    }
    frame
}

/// Gives a slot an energy, in one sample or spread over all of its bands.
fn slot(frame: &mut Frame, rng: &mut Rng, s: usize, re: f64, im: f64) {
    let bands = frame.bands();
    if rng.one_in(2) {
        let band = bands.start + rng.below(bands.len());
        let column = 2 * s + 2 + rng.below(2);
        frame.set(column, band, re, im);
    } else {
        for column in [2 * s + 2, 2 * s + 3] {
            for band in bands.clone() {
                frame.set(column, band, re, im);
            }
        }
    }
}

/// Noise under a walk of loudness.
fn noise(frame: &mut Frame, rng: &mut Rng) {
    let mut level = 2f64.powf(20.0 * rng.unit() - 4.0);
    let jumps = 1 + rng.below(12);
    for s in 0..frame.slots + 8 {
        if rng.one_in(jumps) {
            level *= 2f64.powf(10.0 * rng.unit() - 5.0);
        }
        let bands = frame.bands();
        for column in [2 * s + 2, 2 * s + 3] {
            for band in bands.clone() {
                frame.set(column, band, level * (rng.unit() - 0.5), level * (rng.unit() - 0.5));
            }
        }
    }
}

/// Bursts of whole numbers at chosen slots, over a quiet or loud floor, with or without decay.
fn bursts(frame: &mut Frame, rng: &mut Rng) {
    let floor = [0.0, 1.0, 2.0, 8.0, 10.0][rng.below(5)];
    for s in 0..frame.slots + 8 {
        slot(frame, rng, s, floor, 0.0);
    }
    let mut s = rng.below(8);
    while s < frame.slots + 8 {
        let size = [8.0, 9.0, 24.0, 28.0, 30.0, 100.0, 1000.0][rng.below(7)];
        let im = [0.0, 15.0, 20.0][rng.below(3)];
        slot(frame, rng, s, size, im);
        let decay = rng.below(4);
        for d in 1..=decay {
            if s + d < frame.slots + 8 {
                slot(frame, rng, s + d, size / (1 << (2 * d)) as f64, 0.0);
            }
        }
        s += [1, 2, 3, 4, 4, 4, 5, 6, 9][rng.below(9)].max(decay + 1);
    }
}

/// Energies at the limits of each test: 64, 8 times the floor, a tenth of the peak, halves at ratio 2.
fn ties(frame: &mut Frame, rng: &mut Rng) {
    let band = frame.bands().start;
    let floor = [0.0, 10.0, 8.0][rng.below(3)];
    for s in 0..frame.slots + 8 {
        frame.set(2 * s + 2, band, floor, 0.0);
    }
    for _ in 0..1 + rng.below(3) {
        let s = rng.below(frame.slots + 8);
        let (re, im) = [(8.0, 0.0), (20.0, 20.0), (24.0, 15.0), (28.0, 4.0), (16.0, 16.0), (64.0, 48.0), (80.0, 0.0), (8.0, 1e-9)][rng.below(8)];
        frame.set(2 * s + 2, band, re, im);
    }
    if rng.one_in(2) {
        let half = frame.slots / 2;
        let (a, b) = [(1.0, 2.0), (2.0, 1.0), (4.0, 2.0), (3.0, 1.0)][rng.below(4)];
        for s in 0..frame.slots {
            frame.set(2 * s + 2, band, if s < half { a } else { b }, 0.0);
        }
    }
}

/// Bands whose means differ by about the spread limit.
fn spread(frame: &mut Frame, rng: &mut Rng) {
    let base = [64.0, 100.0, 30.0, 1e6][rng.below(4)] * (0.9 + 0.2 * rng.unit());
    let limit = 10f64.powf(0.6);
    let bands = frame.bands();
    let loud: Vec<bool> = bands.clone().map(|_| rng.one_in(3)).collect();
    let near = rng.one_in(2);
    for column in 2..2 * (frame.slots + 8) + 2 {
        for band in bands.clone() {
            let mut e = base;
            if loud[band - bands.start] {
                e *= limit;
                if near {
                    e = f64::from_bits(e.to_bits() + rng.below(9) as u64 - 4);
                } else {
                    e *= 0.5 + rng.unit();
                }
            }
            frame.set(column, band, e.sqrt(), 0.0);
        }
    }
    for _ in 0..rng.below(4) {
        let s = rng.below(frame.slots);
        slot(frame, rng, s, 20.0 * base, 0.0);
    }
}

pub fn random(rng: &mut Rng) -> Frame {
    let mut frame = empty(rng);
    match rng.below(8) {
        0 | 1 => noise(&mut frame, rng),
        2 | 3 | 4 => bursts(&mut frame, rng),
        5 => ties(&mut frame, rng),
        _ => spread(&mut frame, rng),
    }
    if rng.one_in(6) {
        let bands = frame.bands();
        for _ in 0..1 + rng.below(12) {
            let column = 2 + rng.below(2 * (frame.slots + 8));
            let band = bands.start + rng.below(bands.len());
            let (re, im) = (rng.odd(), if rng.one_in(2) { 0.0 } else { rng.odd() });
            frame.set(column, band, re, im);
        }
    }
    frame
}

/// A frame whose onsets are those given, and whose halves are alike or not where there are none.
pub fn with_onsets(rng: &mut Rng, slots: usize, lead: usize, onsets: &[usize], variable: bool, even: bool) -> Frame {
    let mut frame = empty(rng);
    let extra = frame.x.len() - needed(frame.slots);
    frame.slots = slots;
    frame.previous = (slots + lead) as i32;
    frame.variable = variable;
    frame.x = vec![0.0; needed(slots) + extra];
    let bands = frame.bands();
    for s in 0..slots + 8 {
        let loud = onsets.is_empty() && !even && s >= slots / 2 && s < slots;
        frame.set(2 * s + 2, bands.start, if loud { 2.0 } else { 1.0 }, 0.0);
    }
    for &s in onsets {
        let band = bands.start + rng.below(bands.len());
        frame.set(2 * s + 2 + rng.below(2), band, 40.0 + rng.unit(), 0.0);
    }
    frame
}
