//! The instructions by family, with their names.

/// An enum of operations with the names that each has, one for every family that it is used in.
macro_rules! operations {
    ($(#[$text:meta])* $family:ident { $($case:ident $($name:literal)/+,)* }) => {
        $(#[$text])*
        #[derive(Clone, Copy, Debug, PartialEq, Eq)]
        pub enum $family { $($case),* }

        impl $family {
            fn names(self) -> &'static [&'static str] {
                match self { $($family::$case => &[$($name),+]),* }
            }
        }
    };
}

operations!(Alu {
    AddW "add.w", AddD "add.d", SubW "sub.w", SubD "sub.d", Slt "slt", Sltu "sltu", And "and", Or "or", Nor "nor", Xor "xor",
    Andn "andn", Orn "orn", Maskeqz "maskeqz", Masknez "masknez",
});

operations!(Product {
    MulW "mul.w", MulD "mul.d", MulhW "mulh.w", MulhWu "mulh.wu", MulhD "mulh.d", MulhDu "mulh.du", MulwDW "mulw.d.w",
    MulwDWu "mulw.d.wu",
});

operations!(Division {
    DivW "div.w", ModW "mod.w", DivWu "div.wu", ModWu "mod.wu", DivD "div.d", ModD "mod.d", DivDu "div.du", ModDu "mod.du",
});

operations!(
    /// The amount is in a register or is an immediate.
    Shift {
        SllW "sll.w" / "slli.w", SrlW "srl.w" / "srli.w", SraW "sra.w" / "srai.w", RotrW "rotr.w" / "rotri.w",
        SllD "sll.d" / "slli.d", SrlD "srl.d" / "srli.d", SraD "sra.d" / "srai.d", RotrD "rotr.d" / "rotri.d",
    }
);

operations!(Immediate {
    AddiW "addi.w", AddiD "addi.d", Addu16iD "addu16i.d", Slti "slti", Sltui "sltui", Lu52iD "lu52i.d", Andi "andi", Ori "ori",
    Xori "xori",
});

operations!(Upper {
    Lu12iW "lu12i.w", Lu32iD "lu32i.d", Pcaddi "pcaddi", Pcaddu12i "pcaddu12i", Pcaddu18i "pcaddu18i", Pcalau12i "pcalau12i",
});

operations!(Alsl { W "alsl.w", Wu "alsl.wu", D "alsl.d", });

operations!(Bytepick { W "bytepick.w", D "bytepick.d", });

operations!(Unary {
    ExtWB "ext.w.b", ExtWH "ext.w.h", CloW "clo.w", CloD "clo.d", ClzW "clz.w", ClzD "clz.d", CtoW "cto.w", CtoD "cto.d",
    CtzW "ctz.w", CtzD "ctz.d", Revb2h "revb.2h", Revb4h "revb.4h", Revb2w "revb.2w", RevbD "revb.d", Revh2w "revh.2w",
    RevhD "revh.d", Bitrev4b "bitrev.4b", Bitrev8b "bitrev.8b", BitrevW "bitrev.w", BitrevD "bitrev.d",
});

operations!(Field { InsW "bstrins.w", InsD "bstrins.d", PickW "bstrpick.w", PickD "bstrpick.d", });

operations!(Branch { Beq "beq", Bne "bne", Blt "blt", Bge "bge", Bltu "bltu", Bgeu "bgeu", });

operations!(ZeroBranch { Beqz "beqz", Bnez "bnez", });

operations!(Jump { B "b", Bl "bl", Jirl "jirl", });

operations!(
    /// The address is rj and an offset, or rj and rk.
    Load {
        B "ld.b" / "ldx.b", H "ld.h" / "ldx.h", W "ld.w" / "ldx.w", D "ld.d" / "ldx.d", Bu "ld.bu" / "ldx.bu", Hu "ld.hu" / "ldx.hu",
        Wu "ld.wu" / "ldx.wu",
    }
);

operations!(
    /// The address is rj and an offset, or rj and rk.
    Store { B "st.b" / "stx.b", H "st.h" / "stx.h", W "st.w" / "stx.w", D "st.d" / "stx.d", }
);

operations!(Pointer { LoadW "ldptr.w", LoadD "ldptr.d", StoreW "stptr.w", StoreD "stptr.d", });

operations!(Preload { Offset "preld", Indexed "preldx", });

operations!(Barrier { Data "dbar", Instruction "ibar", });

operations!(Trap { Syscall "syscall", Break "break", });

operations!(Assert { LeD "asrtle.d", GtD "asrtgt.d", });

/// An instruction without its operands.
#[derive(Clone, Copy, Debug, PartialEq, Eq)]
pub enum Operation {
    Alu(Alu),
    Product(Product),
    Division(Division),
    Shift(Shift),
    ShiftBy(Shift),
    Immediate(Immediate),
    Upper(Upper),
    Alsl(Alsl),
    Bytepick(Bytepick),
    Unary(Unary),
    Field(Field),
    Branch(Branch),
    ZeroBranch(ZeroBranch),
    Jump(Jump),
    Load(Load),
    LoadIndexed(Load),
    Store(Store),
    StoreIndexed(Store),
    Pointer(Pointer),
    Preload(Preload),
    Barrier(Barrier),
    Trap(Trap),
    Assert(Assert),
    Cpucfg,
}

impl Operation {
    /// The manual's name, in small letters.
    pub fn mnemonic(self) -> &'static str {
        match self {
            Operation::Alu(case) => case.names()[0],
            Operation::Product(case) => case.names()[0],
            Operation::Division(case) => case.names()[0],
            Operation::Shift(case) => case.names()[0],
            Operation::ShiftBy(case) => case.names()[1],
            Operation::Immediate(case) => case.names()[0],
            Operation::Upper(case) => case.names()[0],
            Operation::Alsl(case) => case.names()[0],
            Operation::Bytepick(case) => case.names()[0],
            Operation::Unary(case) => case.names()[0],
            Operation::Field(case) => case.names()[0],
            Operation::Branch(case) => case.names()[0],
            Operation::ZeroBranch(case) => case.names()[0],
            Operation::Jump(case) => case.names()[0],
            Operation::Load(case) => case.names()[0],
            Operation::LoadIndexed(case) => case.names()[1],
            Operation::Store(case) => case.names()[0],
            Operation::StoreIndexed(case) => case.names()[1],
            Operation::Pointer(case) => case.names()[0],
            Operation::Preload(case) => case.names()[0],
            Operation::Barrier(case) => case.names()[0],
            Operation::Trap(case) => case.names()[0],
            Operation::Assert(case) => case.names()[0],
            Operation::Cpucfg => "cpucfg",
        }
    }
}
