//! One step of the guest. Every check of an instruction comes before its first change, so one that raises has changed nothing.

use crate::compute;
use crate::decode::{lsb, msb, operation};
use crate::operation::*;
use crate::session::{CODE_BASE, WINDOW_BASE};
use crate::word::{bits, offs21, offs26, rd, rj, rk, si12, si14, si16, signed};

/// Why an instruction did not complete, with what the stop carries.
#[derive(Clone, Copy, Debug, PartialEq, Eq)]
pub enum Stop {
    FetchAddress(u64),
    DataAddress(u64),
    Alignment(u64),
    BoundCheck,
    Syscall(u32),
    Break(u32),
    NoInstruction(u32),
}

impl Stop {
    /// Ecode, subcode and what is carried.
    pub fn numbers(self) -> (u64, u64, u64) {
        match self {
            Stop::FetchAddress(pc) => (8, 0, pc),
            Stop::DataAddress(address) => (8, 1, address),
            Stop::Alignment(address) => (9, 0, address),
            Stop::BoundCheck => (10, 0, 0),
            Stop::Syscall(code) => (11, 0, u64::from(code)),
            Stop::Break(code) => (12, 0, u64::from(code)),
            Stop::NoInstruction(word) => (13, 0, u64::from(word)),
        }
    }
}

/// The word at `pc`, if that is a multiple of 4 inside the code. The code's length is a multiple of 4.
#[inline]
pub fn fetch(code: &[u8], pc: u64) -> Option<u32> {
    let at = pc.wrapping_sub(CODE_BASE);
    if at % 4 != 0 || at >= code.len() as u64 {
        return None;
    }
    let at = at as usize;
    let bytes = code.get(at..at + 4)?;
    Some(u32::from_le_bytes([bytes[0], bytes[1], bytes[2], bytes[3]]))
}

/// The guest during a run.
pub struct Machine<'a> {
    pub code: &'a [u8],
    pub window: &'a mut [u8],
    pub regs: [u64; 32],
    pub pc: u64,
}

impl Machine<'_> {
    /// The instruction at pc, all of it or nothing.
    #[inline]
    pub fn step(&mut self) -> Result<(), Stop> {
        let word = fetch(self.code, self.pc).ok_or(Stop::FetchAddress(self.pc))?;
        let operation = operation(word).ok_or(Stop::NoInstruction(word))?;
        self.execute(operation, word)
    }

    #[inline]
    fn execute(&mut self, operation: Operation, word: u32) -> Result<(), Stop> {
        let [a, b, old] = [self.regs[rj(word)], self.regs[rk(word)], self.regs[rd(word)]];
        match operation {
            Operation::Alu(case) => self.set(word, compute::alu(case, a, b)),
            Operation::Product(case) => self.set(word, compute::product(case, a, b)),
            Operation::Division(case) => self.set(word, compute::division(case, a, b)),
            Operation::Shift(case) => self.set(word, compute::shift(case, a, b as u32)),
            // The word forms count modulo 32, so that their bit 15 is read as well does no harm.
            Operation::ShiftBy(case) => self.set(word, compute::shift(case, a, bits(word, 10, 6))),
            Operation::Immediate(case) => self.set(word, compute::immediate(case, a, word)),
            Operation::Upper(case) => self.set(word, compute::upper(case, self.pc, old, word)),
            Operation::Alsl(case) => self.set(word, compute::alsl(case, a, b, word)),
            Operation::Bytepick(case) => self.set(word, compute::bytepick(case, a, b, word)),
            Operation::Unary(case) => self.set(word, compute::unary(case, a)),
            Operation::Field(case) => self.set(word, compute::field(case, a, old, msb(case, word), lsb(case, word))),
            Operation::Cpucfg => self.set(word, compute::configuration(a)),
            Operation::Load(case) => self.load(case, a.wrapping_add(si12(word)), word)?,
            Operation::LoadIndexed(case) => self.load(case, a.wrapping_add(b), word)?,
            Operation::Store(case) => self.store(case, a.wrapping_add(si12(word)), old)?,
            Operation::StoreIndexed(case) => self.store(case, a.wrapping_add(b), old)?,
            Operation::Pointer(case) => self.pointer(case, a.wrapping_add(si14(word) << 2), old, word)?,
            Operation::Preload(_) | Operation::Barrier(_) => {}
            Operation::Trap(Trap::Syscall) => return Err(Stop::Syscall(bits(word, 0, 15))),
            Operation::Trap(Trap::Break) => return Err(Stop::Break(bits(word, 0, 15))),
            Operation::Assert(case) => assert_order(case, a, b)?,
            Operation::Branch(case) => return self.branch(compute::taken(case, a, old), si16(word)),
            Operation::ZeroBranch(ZeroBranch::Beqz) => return self.branch(a == 0, signed(offs21(word), 21)),
            Operation::ZeroBranch(ZeroBranch::Bnez) => return self.branch(a != 0, signed(offs21(word), 21)),
            Operation::Jump(case) => return self.jump(case, a, word),
        }
        self.pc = self.pc.wrapping_add(4);
        Ok(())
    }

    /// A write to register 0 is dropped.
    #[inline]
    fn set_register(&mut self, register: usize, value: u64) {
        self.regs[register] = value;
        self.regs[0] = 0;
    }

    #[inline]
    fn set(&mut self, word: u32, value: u64) {
        self.set_register(rd(word), value);
    }

    /// The offset counts words from the branch's own pc.
    #[inline]
    fn branch(&mut self, taken: bool, offset: u64) -> Result<(), Stop> {
        self.pc = self.pc.wrapping_add(if taken { offset << 2 } else { 4 });
        Ok(())
    }

    /// `a` is rj's value from before the link is written.
    #[inline]
    fn jump(&mut self, case: Jump, a: u64, word: u32) -> Result<(), Stop> {
        let link = self.pc.wrapping_add(4);
        let near = self.pc.wrapping_add(signed(offs26(word), 26) << 2);
        match case {
            Jump::B => self.pc = near,
            Jump::Bl => {
                self.set_register(1, link);
                self.pc = near;
            }
            Jump::Jirl => {
                self.set(word, link);
                self.pc = a.wrapping_add(si16(word) << 2);
            }
        }
        Ok(())
    }

    /// Where an access of `N` bytes begins in the window.
    #[inline]
    fn place<const N: usize>(&self, address: u64) -> Result<usize, Stop> {
        if address % N as u64 != 0 {
            return Err(Stop::Alignment(address));
        }
        let at = address.wrapping_sub(WINDOW_BASE);
        let length = self.window.len() as u64;
        if at >= length || length - at < N as u64 {
            return Err(Stop::DataAddress(address));
        }
        Ok(at as usize)
    }

    #[inline]
    fn bytes<const N: usize>(&self, address: u64) -> Result<[u8; N], Stop> {
        let at = self.place::<N>(address)?;
        let mut bytes = [0; N];
        bytes.copy_from_slice(&self.window[at..at + N]);
        Ok(bytes)
    }

    #[inline]
    fn put<const N: usize>(&mut self, address: u64, bytes: [u8; N]) -> Result<(), Stop> {
        let at = self.place::<N>(address)?;
        self.window[at..at + N].copy_from_slice(&bytes);
        Ok(())
    }

    #[inline]
    fn load(&mut self, case: Load, address: u64, word: u32) -> Result<(), Stop> {
        let value = match case {
            Load::B => i8::from_le_bytes(self.bytes(address)?) as u64,
            Load::H => i16::from_le_bytes(self.bytes(address)?) as u64,
            Load::W => i32::from_le_bytes(self.bytes(address)?) as u64,
            Load::D => u64::from_le_bytes(self.bytes(address)?),
            Load::Bu => u64::from(u8::from_le_bytes(self.bytes(address)?)),
            Load::Hu => u64::from(u16::from_le_bytes(self.bytes(address)?)),
            Load::Wu => u64::from(u32::from_le_bytes(self.bytes(address)?)),
        };
        self.set(word, value);
        Ok(())
    }

    #[inline]
    fn store(&mut self, case: Store, address: u64, value: u64) -> Result<(), Stop> {
        match case {
            Store::B => self.put(address, (value as u8).to_le_bytes()),
            Store::H => self.put(address, (value as u16).to_le_bytes()),
            Store::W => self.put(address, (value as u32).to_le_bytes()),
            Store::D => self.put(address, value.to_le_bytes()),
        }
    }

    #[inline]
    fn pointer(&mut self, case: Pointer, address: u64, value: u64, word: u32) -> Result<(), Stop> {
        match case {
            Pointer::LoadW => self.load(Load::W, address, word),
            Pointer::LoadD => self.load(Load::D, address, word),
            Pointer::StoreW => self.store(Store::W, address, value),
            Pointer::StoreD => self.store(Store::D, address, value),
        }
    }
}

#[inline]
fn assert_order(case: Assert, a: u64, b: u64) -> Result<(), Stop> {
    let at_most = (a as i64) <= (b as i64);
    let holds = match case {
        Assert::LeD => at_most,
        Assert::GtD => !at_most,
    };
    if holds {
        Ok(())
    } else {
        Err(Stop::BoundCheck)
    }
}
