//! Random numbers by a seed, and frames made of them.
use ferrowasp_blheli_telemetry::crc8;

pub struct Rng(u64);
impl Rng {
    pub fn new(seed: u64) -> Self {
        Self(seed.wrapping_mul(0x9e3779b97f4a7c15) | 1)
    }
    /// A number below n.
    pub fn n(&mut self, n: u64) -> u64 {
        self.0 ^= self.0 << 13;
        self.0 ^= self.0 >> 7;
        self.0 ^= self.0 << 17;
        (self.0 >> 11) % n
    }
    pub fn pick<T: Copy>(&mut self, x: &[T]) -> T {
        x[self.n(x.len() as u64) as usize]
    }
    pub fn chance(&mut self, one_in: u64) -> bool {
        self.n(one_in) == 0
    }
    pub fn byte(&mut self) -> u8 {
        self.n(256) as u8
    }
    /// A good frame with an eRPM / 100, its other fields zeros or any bytes.
    pub fn frame(&mut self, erpm: u16) -> [u8; 10] {
        let mut f = [0u8; 10];
        if self.chance(2) {
            f[..7].fill_with(|| self.n(256) as u8);
        }
        f[7..9].copy_from_slice(&erpm.to_be_bytes());
        f[9] = crc8(&f[..9]);
        f
    }
}
