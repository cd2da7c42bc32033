//! Stand-in for the bit reader and writer that the Rust source uses and that can't be had: most significant bit first.
pub mod bits {
    pub struct BitReader<'a> {
        bytes: &'a [u8],
        at: usize,
        /// Whether a read ran past the end.
        pub ended: bool,
    }

    #[derive(Debug)]
    pub struct End;

    impl<'a> BitReader<'a> {
        pub fn new(bytes: &'a [u8], at: usize) -> Self {
            BitReader { bytes, at, ended: false }
        }

        pub fn position(&self) -> usize {
            self.at
        }

        pub fn read_bit(&mut self) -> Result<bool, End> {
            if self.at >= 8 * self.bytes.len() {
                self.ended = true;
                return Err(End);
            }
            let bit = self.bytes[self.at / 8] >> (7 - self.at % 8) & 1;
            self.at += 1;
            Ok(bit == 1)
        }

        pub fn read_u32(&mut self, n: u32) -> Result<u32, End> {
            let mut v = 0;
            for _ in 0..n {
                v = v * 2 + self.read_bit()? as u32;
            }
            Ok(v)
        }
    }

    /// The bits written so far, in one number: a grid has at most 26.
    #[derive(Default)]
    pub struct BitWriter {
        pub value: u64,
        pub width: u32,
    }

    impl BitWriter {
        pub fn write_u32(&mut self, v: u32, n: u32) {
            self.value = self.value << n | (v as u64 & ((1 << n) - 1));
            self.width += n;
        }

        pub fn write_bit(&mut self, b: bool) {
            self.write_u32(b as u32, 1);
        }
    }
}
