//! The kernels: C programs, compiled once for the guest (compile-kernels) and, where there is a compiler, for this machine (build.rs).

/// The window's length, of every kernel. The stack begins at its end.
pub const WINDOW: usize = 65_536;

/// Where the window lies in the arena.
pub const OFFSET: usize = 192;

pub type Native = unsafe extern "C" fn(rounds: u64) -> u64;

pub struct Kernel {
    pub name: &'static str,
    /// So many rounds make some millions of steps.
    pub rounds: u64,
    pub code: Vec<u8>,
    data: &'static [u8],
    pub native: Option<Native>,
}

#[cfg(feature = "native")]
extern "C" {
    fn kernel_arithmetic(rounds: u64) -> u64;
    fn kernel_hash(rounds: u64) -> u64;
    fn kernel_sort(rounds: u64) -> u64;
    fn kernel_tariff(rounds: u64) -> u64;
    fn kernel_fares(rounds: u64) -> u64;
}

#[cfg(feature = "native")]
macro_rules! native {
    ($symbol:ident) => {
        Some($symbol as Native)
    };
}

#[cfg(not(feature = "native"))]
macro_rules! native {
    ($symbol:ident) => {
        None
    };
}

macro_rules! kernel {
    ($name:literal, $symbol:ident, $rounds:literal) => {
        Kernel {
            name: $name,
            rounds: $rounds,
            code: include_bytes!(concat!("../kernels/", $name, ".code")).to_vec(),
            data: include_bytes!(concat!("../kernels/", $name, ".window")),
            native: native!($symbol),
        }
    };
}

/// Copies of the code, which begin at a multiple of 16, as allocated memory does.
pub fn all() -> Vec<Kernel> {
    vec![
        kernel!("arithmetic", kernel_arithmetic, 250),
        kernel!("hash", kernel_hash, 100),
        kernel!("sort", kernel_sort, 20),
        kernel!("tariff", kernel_tariff, 30),
        kernel!("fares", kernel_fares, 200),
    ]
}

impl Kernel {
    /// The window before a run: the number of rounds, constants and variables, then zeros.
    pub fn window(&self, rounds: u64) -> Vec<u8> {
        let mut window = self.data.to_vec();
        window[..8].copy_from_slice(&rounds.to_le_bytes());
        window.resize(WINDOW, 0);
        window
    }

    /// An arena with this window.
    pub fn arena(&self, rounds: u64) -> Vec<u8> {
        let mut arena = vec![0; OFFSET];
        arena.extend(self.window(rounds));
        arena.resize(OFFSET + WINDOW + OFFSET, 0);
        arena
    }
}
