//! A kernel under qemu's user emulation: the same code and window as a Linux program, an ELF file with one segment for each.

use crate::kernels::Kernel;
use std::path::{Path, PathBuf};
use std::process::{Command, Stdio};

const CODE: u64 = 0x10000;
const WINDOW: u64 = 0x40000000;
const SYSCALL: u32 = 0x002B_0000;
const NOP: u32 = 0x0340_0000;
const PAGE: u64 = 0x10000;

pub struct Qemu {
    command: PathBuf,
    scratch: PathBuf,
    /// The option with which each instruction is translated and run alone.
    one: &'static str,
}

impl Qemu {
    /// Older versions call the option -singlestep, newer ones -one-insn-per-tb. None where neither is taken.
    pub fn new(command: &Path, scratch: &Path, sample: &Kernel) -> Result<Qemu, String> {
        for one in ["-one-insn-per-tb", "-singlestep"] {
            let qemu = Qemu {
                command: command.into(),
                scratch: scratch.into(),
                one,
            };
            let program = qemu.program(sample, 0)?;
            if qemu.run(&program, true).is_ok() {
                return Ok(qemu);
            }
        }
        Err(format!("{} does not run a kernel one instruction at a time", command.display()))
    }

    /// Writes the kernel as a program that works for so many rounds.
    pub fn program(&self, kernel: &Kernel, rounds: u64) -> Result<PathBuf, String> {
        let path = self.scratch.join(format!("{}-{}.elf", kernel.name, rounds));
        let bytes = elf(&without_stop(&kernel.code), &kernel.window(rounds));
        std::fs::write(&path, bytes).map_err(|error| format!("{}: {}", path.display(), error))?;
        std::fs::set_permissions(&path, std::os::unix::fs::PermissionsExt::from_mode(0o755)).map_err(|error| error.to_string())?;
        Ok(path)
    }

    /// Runs a program and gives the checksum that it writes.
    pub fn run(&self, program: &Path, one: bool) -> Result<u64, String> {
        let mut command = Command::new(&self.command);
        if one {
            command.arg(self.one);
        }
        let done = command
            .arg(program)
            .stderr(Stdio::null())
            .output()
            .map_err(|error| format!("qemu: {}", error))?;
        let checksum: Result<[u8; 8], _> = done.stdout.as_slice().try_into();
        match checksum {
            Ok(bytes) if done.status.success() => Ok(u64::from_le_bytes(bytes)),
            _ => Err(format!("qemu: {} ended with {}", program.display(), done.status)),
        }
    }
}

/// The kernel's first SYSCALL, where a run stops, becomes a NOP; behind it start.s writes the checksum and exits.
fn without_stop(code: &[u8]) -> Vec<u8> {
    let mut code = code.to_vec();
    let stop = code
        .chunks_exact(4)
        .position(|word| word == SYSCALL.to_le_bytes())
        .expect("a kernel has a SYSCALL");
    code[4 * stop..4 * stop + 4].copy_from_slice(&NOP.to_le_bytes());
    code
}

/// An ELF file for LoongArch with a segment of code and one of data.
fn elf(code: &[u8], window: &[u8]) -> Vec<u8> {
    let mut file = vec![0x7f, b'E', b'L', b'F', 2, 1, 1, 0, 0, 0, 0, 0, 0, 0, 0, 0];
    put(&mut file, 2, &[2, 258]); // a program that is not relocated, for LoongArch
    put(&mut file, 4, &[1]);
    put(&mut file, 8, &[CODE, 64, 0]); // where it starts, where the list of segments is, no sections
    put(&mut file, 4, &[1]); // soft float
    put(&mut file, 2, &[64, 56, 2, 0, 0, 0]);
    segment(&mut file, 5, PAGE, CODE, code.len() as u64);
    segment(&mut file, 6, 2 * PAGE, WINDOW, window.len() as u64);
    file.resize(PAGE as usize, 0);
    file.extend(code);
    file.resize(2 * PAGE as usize, 0);
    file.extend(window);
    file
}

/// One line of the list of segments: what may be done there (4 read, 2 write, 1 run), where it is in the file and in memory.
fn segment(file: &mut Vec<u8>, allowed: u64, from: u64, address: u64, length: u64) {
    put(file, 4, &[1, allowed]);
    put(file, 8, &[from, address, address, length, length, PAGE]);
}

fn put(file: &mut Vec<u8>, width: usize, values: &[u64]) {
    for value in values {
        file.extend(&value.to_le_bytes()[..width]);
    }
}
