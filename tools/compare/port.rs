//! The program's C calls (include/sbr_grid.h), wrapped. Nothing here decides anything.

/// A record as C sees it: class, envelopes, noise floors, border bytes, counts of the lists, pointer, override; flags; lists.
#[derive(Clone, Copy, Debug, PartialEq)]
pub struct Record {
    pub numbers: [u32; 9],
    pub flags: [u8; 5],
    pub rel_0: [u8; 4],
    pub rel_1: [u8; 4],
}

#[derive(Clone, Copy, Debug, PartialEq)]
pub struct Times {
    pub t_e: [u32; 6],
    pub t_q: [u32; 3],
    pub l_a: i32,
}

extern "C" {
    fn sbr_write_grid(
        bytes: *mut u8, len: usize, position: *mut u64, class: u32, num_env: u64, flags: *const u8, flags_len: usize, b0: u8,
        b1: u8, rel_0: *const u8, rel_0_len: usize, num_0: u64, rel_1: *const u8, rel_1_len: usize, num_1: u64, pointer: u8,
    ) -> u32;
    fn sbr_derive_time_grid(
        slots: u64, class: u32, num_env: u64, noise: u64, b0: u8, b1: u8, rel_0: *const u8, rel_0_len: usize, num_0: u64,
        rel_1: *const u8, rel_1_len: usize, num_1: u64, pointer: u8, t_e: *mut u32, t_q: *mut u32, l_a: *mut i32,
    ) -> u32;
    fn sbr_read_grid(
        bytes: *const u8, len: usize, slots: u64, position: *mut u64, border: *mut i32, attack: *mut u32, begins: *mut u32,
        numbers: *mut u32, flags: *mut u8, rel_0: *mut u8, rel_1: *mut u8, t_e: *mut u32, t_q: *mut u32, l_a: *mut i32,
    ) -> u32;
    fn sbr_elect_grid(
        samples: *const f64, len: usize, high: *const u8, high_len: usize, low: *const u8, low_len: usize, previous: i32,
        variable: u32, slots: u64, transient: *mut u32, numbers: *mut u32, flags: *mut u8, rel_0: *mut u8, rel_1: *mut u8,
    ) -> u32;
    fn sbr_estimate_envelopes(
        samples: *const f64, len: usize, high: *const u8, high_len: usize, low: *const u8, low_len: usize, slots: u64, class: u32,
        num_env: u64, noise: u64, flags: *const u8, flags_len: usize, b0: u8, b1: u8, rel_0: *const u8, rel_0_len: usize,
        num_0: u64, rel_1: *const u8, rel_1_len: usize, num_1: u64, pointer: u8, energies: *mut f64, energies_len: usize,
        count: *mut u64,
    ) -> u32;
    fn sbr_quantise_envelopes(energy: *const f64, len: usize, amp_res: u32, out: *mut u8, out_len: usize) -> u32;
    fn sbr_send_frame(
        samples: *const f64, len: usize, high: *const u8, high_len: usize, low: *const u8, low_len: usize, variable: u32,
        slots: u64, bytes: *mut u8, bytes_len: usize, position: *mut u64, border: *mut i32, transient: *mut u32,
        numbers: *mut u32, flags: *mut u8, rel_0: *mut u8, rel_1: *mut u8, t_e: *mut u32, t_q: *mut u32, l_a: *mut i32,
    ) -> u32;
}

/// A border byte or a pointer.
fn byte(number: u32) -> u8 {
    u8::try_from(number).expect("a byte")
}

pub fn write_grid(bytes: &mut [u8], position: &mut u64, r: &Record) -> u32 {
    let n = r.numbers;
    unsafe {
        sbr_write_grid(
            bytes.as_mut_ptr(), bytes.len(), position, n[0], n[1] as u64, r.flags.as_ptr(), 5, byte(n[3]), byte(n[4]),
            r.rel_0.as_ptr(), 4, n[5] as u64, r.rel_1.as_ptr(), 4, n[6] as u64, byte(n[7]),
        )
    }
}

pub fn derive_time_grid(slots: u64, r: &Record, t: &mut Times) -> u32 {
    let n = r.numbers;
    unsafe {
        sbr_derive_time_grid(
            slots, n[0], n[1] as u64, n[2] as u64, byte(n[3]), byte(n[4]), r.rel_0.as_ptr(), 4, n[5] as u64, r.rel_1.as_ptr(), 4,
            n[6] as u64, byte(n[7]), t.t_e.as_mut_ptr(), t.t_q.as_mut_ptr(), &mut t.l_a,
        )
    }
}

/// What a reading takes and moves on, and whether its frame begins on an attack.
#[derive(Clone, Copy, Debug, PartialEq)]
pub struct Place {
    pub position: u64,
    pub border: i32,
    pub attack: u32,
    pub begins: u32,
}

pub fn read_grid(bytes: &[u8], slots: u64, p: &mut Place, r: &mut Record, t: &mut Times) -> u32 {
    unsafe {
        sbr_read_grid(
            bytes.as_ptr(), bytes.len(), slots, &mut p.position, &mut p.border, &mut p.attack, &mut p.begins, r.numbers.as_mut_ptr(),
            r.flags.as_mut_ptr(), r.rel_0.as_mut_ptr(), r.rel_1.as_mut_ptr(), t.t_e.as_mut_ptr(), t.t_q.as_mut_ptr(), &mut t.l_a,
        )
    }
}

pub fn elect_grid(
    x: &[f64], high: &[u8], low: &[u8], previous: i32, variable: u32, slots: u64, transient: &mut u32, r: &mut Record,
) -> u32 {
    unsafe {
        sbr_elect_grid(
            x.as_ptr(), x.len(), high.as_ptr(), high.len(), low.as_ptr(), low.len(), previous, variable, slots, transient,
            r.numbers.as_mut_ptr(), r.flags.as_mut_ptr(), r.rel_0.as_mut_ptr(), r.rel_1.as_mut_ptr(),
        )
    }
}

pub fn estimate_envelopes(
    x: &[f64], high: &[u8], low: &[u8], slots: u64, r: &Record, energies: &mut [f64], count: &mut u64,
) -> u32 {
    let n = r.numbers;
    unsafe {
        sbr_estimate_envelopes(
            x.as_ptr(), x.len(), high.as_ptr(), high.len(), low.as_ptr(), low.len(), slots, n[0], n[1] as u64, n[2] as u64,
            r.flags.as_ptr(), 5, byte(n[3]), byte(n[4]), r.rel_0.as_ptr(), 4, n[5] as u64, r.rel_1.as_ptr(), 4, n[6] as u64,
            byte(n[7]), energies.as_mut_ptr(), energies.len(), count,
        )
    }
}

pub fn quantise_envelopes(energy: &[f64], amp_res: u32, out: &mut [u8]) -> u32 {
    unsafe { sbr_quantise_envelopes(energy.as_ptr(), energy.len(), amp_res, out.as_mut_ptr(), out.len()) }
}

/// What a turn hands out.
#[derive(Clone, Copy, Debug, PartialEq)]
pub struct Turn {
    pub position: u64,
    pub border: i32,
    pub transient: u32,
    pub record: Record,
    pub times: Times,
}

pub fn send_frame(x: &[f64], high: &[u8], low: &[u8], variable: u32, slots: u64, bytes: &mut [u8], t: &mut Turn) -> u32 {
    let (r, m) = (&mut t.record, &mut t.times);
    unsafe {
        sbr_send_frame(
            x.as_ptr(), x.len(), high.as_ptr(), high.len(), low.as_ptr(), low.len(), variable, slots, bytes.as_mut_ptr(),
            bytes.len(), &mut t.position, &mut t.border, &mut t.transient, r.numbers.as_mut_ptr(), r.flags.as_mut_ptr(),
            r.rel_0.as_mut_ptr(), r.rel_1.as_mut_ptr(), m.t_e.as_mut_ptr(), m.t_q.as_mut_ptr(), &mut m.l_a,
        )
    }
}
