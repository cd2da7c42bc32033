//! The Rust's functions as they stand, opened for comparison. The text of `sbr_grid.rs` and `sbr_time_grid.rs` is taken whole, that of the
//! others by item (see `build`); the rest here is glue: an error type, and the fields that the encoder's methods read.

#[derive(Debug)]
pub enum Error {
    SbrGridInvalid,
}

pub type Result<T> = std::result::Result<T, Error>;

/// Puts the bits that the Rust wrote at a position of a range, clears the rest of the byte in which they end, and answers the position after them; nothing
/// where the range has too little room. The Rust has no such rule; it is the order's.
pub fn put(bytes: &mut [u8], position: u64, writer: &oxideav_core::bits::BitWriter) -> Option<u64> {
    let bits = 8 * bytes.len() as u64;
    if position > bits || u64::from(writer.width) > bits - position {
        return None;
    }
    let (start, end) = (position as usize, position as usize + writer.width as usize);
    for at in start..end {
        let bit = (writer.value >> (end - 1 - at) & 1) as u8;
        bytes[at / 8] = bytes[at / 8] & !(128 >> (at % 8)) | bit << (7 - at % 8);
    }
    let rest = if start < end { end.next_multiple_of(8) } else { end };
    for at in end..rest {
        bytes[at / 8] &= !(128 >> (at % 8));
    }
    Some(end as u64)
}

#[allow(dead_code)]
pub mod sbr_grid {
    include!(concat!(env!("SBR_CUT"), "/sbr_grid.rs"));
}

#[allow(dead_code)]
pub mod sbr_time_grid {
    include!(concat!(env!("SBR_CUT"), "/sbr_time_grid.rs"));
}

#[allow(dead_code)]
pub mod sbr_qmf {
    include!(concat!(env!("SBR_CUT"), "/sbr_qmf.rs"));
}

pub mod sbr_writer {
    use crate::sbr_grid::{FrameClass, SbrGrid};
    use crate::{Error, Result};
    use oxideav_core::bits::BitWriter;
    include!(concat!(env!("SBR_CUT"), "/sbr_writer.rs"));
}

pub mod sbr_encoder {
    use crate::sbr_grid::{FrameClass, SbrGrid};
    use crate::sbr_qmf::Complex;
    use crate::sbr_time_grid::derive_time_grid;

    pub struct Config {
        pub num_time_slots: usize,
        pub variable_borders: bool,
    }

    pub struct Bands {
        pub f_table_high: Vec<i32>,
        pub f_table_low: Vec<i32>,
        pub m: i32,
        pub k_x: i32,
    }

    pub struct SbrEncoder {
        pub cfg: Config,
        pub bands: Bands,
    }

    impl SbrEncoder {
        pub fn new(num_time_slots: usize, variable_borders: bool, high: &[u8], low: &[u8]) -> Self {
            let wide = |t: &[u8]| t.iter().map(|&b| i32::from(b)).collect::<Vec<_>>();
            let (first, last) = (i32::from(high[0]), i32::from(high[high.len() - 1]));
            SbrEncoder {
                cfg: Config { num_time_slots, variable_borders },
                bands: Bands { f_table_high: wide(high), f_table_low: wide(low), m: last - first, k_x: first },
            }
        }

        pub fn elect(&self, x: &[[Complex; 64]], t_e_last_prev: i32) -> (SbrGrid, bool) {
            self.elect_grid(x, t_e_last_prev)
        }

        pub fn elect_res(&self, x: &[[Complex; 64]], t0: i32, t1: i32) -> bool {
            self.elect_freq_res(x, t0, t1)
        }

        pub fn estimate(&self, x: &[[Complex; 64]], grid: &SbrGrid, t_e: &[i32]) -> Vec<Vec<f64>> {
            self.estimate_envelopes(x, grid, t_e)
        }
    }

    include!(concat!(env!("SBR_CUT"), "/sbr_encoder.rs"));
}
