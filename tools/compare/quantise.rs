//! Quantised energies: the program beside the Rust, and beside the order's rule in whole numbers.
use crate::frames::Rng;
use crate::{add, port, Counts};
use oracle::sbr_encoder::quantise_envelopes;
use std::sync::OnceLock;

/// What stands in each byte before a call.
const OLD_BYTE: u8 = 0xee;

/// Within as many units in the last place of an edge the Rust's logarithm may round either way.
const EXCUSED: u64 = 128;

/// One of the two steps: `amp_res`, and the bits of the least double that attains each value, from 1 to the highest.
struct Step {
    amp_res: bool,
    edges: Vec<u64>,
}

/// Whether x to the power p, 2 or 4, is at least 2 to the power e, for x below 2^53 and e of 104 or more.
fn at_least(x: u64, p: u32, e: u32) -> bool {
    let square = u128::from(x) * u128::from(x);
    if p == 2 {
        return square >= 1 << e;
    }
    // the upper 128 bits of the square's square, whose other bits can't matter: those of 2^e are 0
    let (high, low) = (square >> 64, square & u128::from(u64::MAX));
    let middle = 2 * high * low + (low * low >> 64);
    high * high + (middle >> 64) >= 1 << (e - 128)
}

/// The least x from 2^52 on whose power p is at least 2^(52 p + k), for k from 0 to p: that of a double in the octave of 1.
fn least(p: u32, k: u32) -> u64 {
    let (mut low, mut high) = ((1u64 << 52) - 1, 1u64 << 53);
    while high - low > 1 {
        let middle = (low + high) / 2;
        if at_least(middle, p, 52 * p + k) {
            high = middle;
        } else {
            low = middle;
        }
    }
    high
}

impl Step {
    /// r^p >= 2^(2q - 1): r is 2^octave times a number from 1 to 2 whose power p is at least 2^k.
    fn new(amp_res: bool, p: u32, highest: u32) -> Self {
        let edge = |q: u32| {
            let (octave, k) = ((2 * q - 1) / p, (2 * q - 1) % p);
            (u64::from(1023 + 6 + octave) << 52) + (least(p, k) - (1 << 52))
        };
        Step { amp_res, edges: (1..=highest).map(edge).collect() }
    }

    /// The value by the rule, how many edges an energy reaches; and whether it is excused. An edge lies between two doubles, `edge - 1` and `edge`: 128 of them
    /// on each side are within 128 units of it.
    fn judge(&self, energy: f64) -> (u8, bool) {
        if !(energy > 64.0) {
            return (0, false);
        }
        let bits = energy.to_bits();
        let value = self.edges.partition_point(|&edge| edge <= bits);
        let behind = value > 0 && bits - self.edges[value - 1] < EXCUSED;
        let before = value < self.edges.len() && self.edges[value] - bits <= EXCUSED;
        (value as u8, behind || before)
    }
}

/// The coarse step and the fine one.
fn steps() -> &'static [Step; 2] {
    static STEPS: OnceLock<[Step; 2]> = OnceLock::new();
    STEPS.get_or_init(|| [Step::new(true, 2, 63), Step::new(false, 4, 127)])
}

/// A call that must be refused by the number given and leave every byte as it was.
fn refused(energies: &[f64], switch: u32, room: usize, wanted: u32) -> Result<(), String> {
    let mut out = vec![OLD_BYTE; room];
    let code = port::quantise_envelopes(energies, switch, &mut out);
    if code != wanted || out.iter().any(|&b| b != OLD_BYTE) {
        return Err(format!("quantising {} energies into {room} bytes, amp_res {switch}: {wanted} wanted, program {code}, bytes {out:02x?}", energies.len()));
    }
    Ok(())
}

/// The first energy whose value is not the rule's or, outside the excuse, not the Rust's. The program is handed the rows one after another, with room to spare or
/// exactly enough, and now and then with a byte too few or a switch above 1.
fn compare_step(step: &Step, rows: &[Vec<f64>], rng: &mut Rng, counts: &mut Counts) -> Result<(), String> {
    let rust: Vec<i32> = quantise_envelopes(rows, step.amp_res).concat();
    let energies: Vec<f64> = rows.concat();
    let (switch, room) = (u32::from(step.amp_res), energies.len() + [0, 0, 1, 70][rng.below(4)]);
    let mut out = vec![OLD_BYTE; room];
    let code = port::quantise_envelopes(&energies, switch, &mut out);
    if code != 0 {
        return Err(format!("quantising {} energies into {room} bytes refused by {code}", energies.len()));
    }
    if out[energies.len()..].iter().any(|&b| b != OLD_BYTE) {
        return Err(format!("quantising {} energies into {room} bytes: a byte past the values is touched", energies.len()));
    }
    let (mut excused, mut apart) = (0, 0);
    for ((&energy, &wanted), &value) in energies.iter().zip(&rust).zip(&out) {
        let (rule, near) = step.judge(energy);
        let equal = i32::from(value) == wanted;
        if value != rule || !near && !equal {
            return Err(format!("quantising {energy:e} ({:016x}), amp_res {switch}: Rust {wanted}, rule {rule}, program {value}", energy.to_bits()));
        }
        excused += u64::from(near);
        apart += u64::from(near && !equal);
    }
    add(counts, ["quantised values, fine", "quantised values, coarse"][switch as usize], energies.len() as u64);
    add(counts, "quantised values excused within 128 units", excused);
    add(counts, "quantised values excused that are not the Rust's", apart);
    if !energies.is_empty() && rng.one_in(8) {
        refused(&energies, switch, energies.len() - 1 - rng.below(energies.len()).min(2), 4)?;
        add(counts, "quantising refused for room", 1);
    }
    if rng.one_in(8) {
        refused(&energies, [2, 3, 256, 1 << 31, u32::MAX][rng.below(5)], rng.below(energies.len() + 2), 5)?;
        add(counts, "quantising refused for its switch", 1);
    }
    Ok(())
}

/// Rows of energies with both steps.
pub fn compare(rows: &[Vec<f64>], rng: &mut Rng, counts: &mut Counts) -> Result<(), String> {
    steps().iter().try_for_each(|step| compare_step(step, rows, rng, counts))
}

/// Every power of 2 and what is next to it, of both signs; the neighbourhood of every edge of either step, past the excuse on both sides; zeros, denormals, the
/// largest double, infinities, NaN.
pub fn all_places(rng: &mut Rng, counts: &mut Counts) -> Result<(), String> {
    let mut rows: Vec<Vec<f64>> = Vec::new();
    let mut around = |center: u64, reach: u64| rows.push((center.saturating_sub(reach)..=center + reach).map(f64::from_bits).collect());
    // the bits of a power of 2: a denormal has one bit set, any other an exponent alone
    for power in (0..52).map(|k| 1u64 << k).chain((1..2047).map(|k| k << 52)) {
        around(power, 3);
        around(1 << 63 | power, 3);
    }
    for edge in steps().iter().flat_map(|s| &s.edges) {
        around(*edge, EXCUSED + 3);
        around(1 << 63 | *edge, 3);
    }
    around(f64::MAX.to_bits(), 3);
    around(f64::MIN.to_bits(), 3);
    rows.push(vec![0.0, -0.0, 64.0, -64.0, f64::INFINITY, f64::NEG_INFINITY, f64::NAN, -f64::NAN, f64::from_bits(0x7ff0_0000_0000_0001), f64::from_bits(u64::MAX)]);
    rows.push(Vec::new());
    for row in &rows {
        compare(std::slice::from_ref(row), rng, counts)?;
    }
    compare(&rows, rng, counts)?;
    compare(&[], rng, counts)
}

/// Up to eight energies of any kind: any bits, an octave from below 64 to past the highest value, next to an edge, or odd.
pub fn any_energies(rng: &mut Rng) -> Vec<f64> {
    let edges = &steps()[rng.below(2)].edges;
    let energy = |rng: &mut Rng| match rng.below(4) {
        0 => f64::from_bits(rng.next()),
        1 => f64::from_bits((1023 + rng.below(80) as u64) << 52 | rng.next() >> 12),
        2 => f64::from_bits(edges[rng.below(edges.len())] + rng.below(1024) as u64 - 512),
        _ => rng.odd(),
    };
    (0..rng.below(9)).map(|_| energy(rng)).collect()
}
