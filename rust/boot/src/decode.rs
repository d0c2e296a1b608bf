//! What an instruction is, of those that trap in U and are done in the firmware's place.

use vhart::{Csr, Hart, Imm, Rd, Rs1, X};

pub enum Instruction {
    Csr(CsrInstruction),
    Mret,
    Sret,
    Wfi,
    SfenceVma,
    /// None of these: an illegal one.
    Other,
}

pub struct CsrInstruction {
    pub form: Form,
    pub csr: Csr,
    pub rd: Rd,
    /// Where the operand comes from: a register, or the immediate itself.
    field: u64,
}

#[derive(Clone, Copy, PartialEq)]
pub enum Form {
    Csrrw,
    Csrrs,
    Csrrc,
    Csrrwi,
    Csrrsi,
    Csrrci,
}

impl CsrInstruction {
    pub fn rs1(&self) -> Rs1 {
        Rs1(self.field)
    }

    pub fn imm(&self) -> Imm {
        Imm(self.field)
    }

    /// csrrw always writes, the others not with x0 or 0.
    pub fn writes(&self) -> bool {
        matches!(self.form, Form::Csrrw | Form::Csrrwi) || self.field != 0
    }

    /// What is written to a CSR that holds this.
    pub fn written(&self, hart: &Hart, old: u64) -> u64 {
        match self.form {
            Form::Csrrw => hart.x(X(self.field)),
            Form::Csrrs => old | hart.x(X(self.field)),
            Form::Csrrc => old & !hart.x(X(self.field)),
            Form::Csrrwi => self.field,
            Form::Csrrsi => old | self.field,
            Form::Csrrci => old & !self.field,
        }
    }
}

pub fn decode(instruction: u64) -> Instruction {
    match instruction {
        0x3020_0073 => Instruction::Mret,
        0x1020_0073 => Instruction::Sret,
        0x1050_0073 => Instruction::Wfi,
        _ if instruction & 0xFE00_7FFF == 0x1200_0073 => Instruction::SfenceVma,
        _ => csr_instruction(instruction).map_or(Instruction::Other, Instruction::Csr),
    }
}

fn csr_instruction(instruction: u64) -> Option<CsrInstruction> {
    let field = |place: u32, bits: u32| instruction >> place & ((1 << bits) - 1);
    let form = match field(12, 3) {
        _ if field(0, 7) != 0x73 || instruction >> 32 != 0 => return None,
        1 => Form::Csrrw,
        2 => Form::Csrrs,
        3 => Form::Csrrc,
        5 => Form::Csrrwi,
        6 => Form::Csrrsi,
        7 => Form::Csrrci,
        _ => return None,
    };
    Some(CsrInstruction {
        form,
        csr: Csr(field(20, 12)),
        rd: Rd(field(7, 5)),
        field: field(15, 5),
    })
}

/// A load or a store of the integer registers.
pub struct Access {
    pub is_store: bool,
    /// 1, 2, 4 or 8.
    pub bytes: u64,
    /// Whether what is loaded is negative where its highest bit is 1.
    is_signed: bool,
    base: X,
    offset: u64,
    /// Which is loaded, or stored.
    pub register: X,
    /// How long the instruction is.
    pub length: u64,
}

impl Access {
    pub fn address(&self, hart: &Hart) -> u64 {
        hart.x(self.base).wrapping_add(self.offset)
    }

    /// What is stored of a register.
    pub fn cut(&self, value: u64) -> u64 {
        let unused = 64 - 8 * self.bytes as u32;
        value.wrapping_shl(unused).wrapping_shr(unused)
    }

    /// What the register holds once these bytes are loaded.
    pub fn extended(&self, value: u64) -> u64 {
        let unused = 64 - 8 * self.bytes as u32;
        let high = value.wrapping_shl(unused);
        match self.is_signed {
            true => (high as i64).wrapping_shr(unused) as u64,
            false => high.wrapping_shr(unused),
        }
    }
}

/// What a load or a store does, if the instruction is one. Floating-point and atomic ones aren't
/// known.
pub fn access(instruction: u32) -> Option<Access> {
    match instruction & 3 {
        3 => whole(instruction),
        0 => compressed(instruction),
        2 => compressed_by_sp(instruction),
        _ => None,
    }
}

fn whole(instruction: u32) -> Option<Access> {
    let kind = instruction >> 12 & 7;
    let (is_store, offset) = match instruction & 0x7F {
        0x03 if kind != 7 => (false, (instruction as i32) >> 20),
        0x23 if kind < 4 => {
            let high = (instruction as i32) >> 25 << 5;
            (true, high | (instruction >> 7 & 31) as i32)
        }
        _ => return None,
    };
    Some(Access {
        is_store,
        bytes: 1 << (kind & 3),
        is_signed: kind < 4,
        base: register(instruction, 15),
        offset: i64::from(offset) as u64,
        register: register(instruction, if is_store { 20 } else { 7 }),
        length: 4,
    })
}

/// c.lw, c.ld, c.sw and c.sd.
fn compressed(instruction: u32) -> Option<Access> {
    let bit = |from: u32, to: u32| u64::from(instruction >> from & 1) << to;
    let middle = bit(10, 3) | bit(11, 4) | bit(12, 5);
    let (is_store, bytes, offset) = match instruction >> 13 & 7 {
        2 => (false, 4, middle | bit(6, 2) | bit(5, 6)),
        3 => (false, 8, middle | bit(5, 6) | bit(6, 7)),
        6 => (true, 4, middle | bit(6, 2) | bit(5, 6)),
        7 => (true, 8, middle | bit(5, 6) | bit(6, 7)),
        _ => return None,
    };
    Some(Access {
        is_store,
        bytes,
        is_signed: true,
        base: X(8 + u64::from(instruction >> 7 & 7)),
        offset,
        register: X(8 + u64::from(instruction >> 2 & 7)),
        length: 2,
    })
}

/// c.lwsp, c.ldsp, c.swsp and c.sdsp.
fn compressed_by_sp(instruction: u32) -> Option<Access> {
    let bits =
        |from: u32, count: u32, to: u32| u64::from(instruction >> from & ((1 << count) - 1)) << to;
    let (is_store, bytes, offset) = match instruction >> 13 & 7 {
        2 => (false, 4, bits(4, 3, 2) | bits(12, 1, 5) | bits(2, 2, 6)),
        3 => (false, 8, bits(5, 2, 3) | bits(12, 1, 5) | bits(2, 3, 6)),
        6 => (true, 4, bits(9, 4, 2) | bits(7, 2, 6)),
        7 => (true, 8, bits(10, 3, 3) | bits(7, 3, 6)),
        _ => return None,
    };
    Some(Access {
        is_store,
        bytes,
        is_signed: true,
        base: X(2),
        offset,
        register: register(instruction, if is_store { 2 } else { 7 }),
        length: 2,
    })
}

fn register(instruction: u32, place: u32) -> X {
    X(u64::from(instruction >> place & 31))
}
