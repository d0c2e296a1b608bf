//! The instructions that the firmware may not run itself, each with the call of the library that
//! does it.

use std::fmt;

use vhart::{Answer, Caps, Csr, Effect, Hart, Host, Imm, Rd, Refusal, Rs1, Word};

pub struct Instruction {
    name: &'static str,
    call: Call,
    csr: Csr,
    rd: Rd,
    operand: u64,
}

/// A call for a CSR instruction with this operand.
type CsrCall<Operand> = fn(&mut Hart, &Caps, Csr, Rd, Operand, Host) -> Result<Answer, Refusal>;

enum Call {
    Register(CsrCall<Rs1>),
    Immediate(CsrCall<Imm>),
    Return(fn(&mut Hart, &Caps) -> Result<(), Refusal>),
}

pub fn decode(word: u32) -> Option<Instruction> {
    let (name, call) = match (word & 0x7F, word >> 12 & 7) {
        (0x73, 1) => ("csrrw", Call::Register(Hart::csrrw)),
        (0x73, 2) => ("csrrs", Call::Register(Hart::csrrs)),
        (0x73, 3) => ("csrrc", Call::Register(Hart::csrrc)),
        (0x73, 5) => ("csrrwi", Call::Immediate(Hart::csrrwi)),
        (0x73, 6) => ("csrrsi", Call::Immediate(Hart::csrrsi)),
        (0x73, 7) => ("csrrci", Call::Immediate(Hart::csrrci)),
        _ if word == 0x3020_0073 => ("mret", Call::Return(Hart::mret)),
        _ if word == 0x1020_0073 => ("sret", Call::Return(Hart::sret)),
        _ => return None,
    };
    Some(Instruction {
        name,
        call,
        csr: Csr(u64::from(word >> 20)),
        rd: Rd(u64::from(word >> 7 & 31)),
        operand: u64::from(word >> 15 & 31),
    })
}

impl Instruction {
    /// Makes its call, and moves pc on where the call doesn't set it.
    pub fn run(&self, hart: &mut Hart, caps: &Caps, host: Host) -> Result<Effect, Refusal> {
        let answer = match self.call {
            Call::Register(call) => call(hart, caps, self.csr, self.rd, Rs1(self.operand), host)?,
            Call::Immediate(call) => call(hart, caps, self.csr, self.rd, Imm(self.operand), host)?,
            Call::Return(call) => return call(hart, caps).map(|()| Effect::None),
        };
        hart.set(Word::Pc, hart.get(Word::Pc).wrapping_add(4));
        Ok(answer.effect)
    }
}

impl fmt::Display for Instruction {
    fn fmt(&self, f: &mut fmt::Formatter<'_>) -> fmt::Result {
        let (name, csr, rd, operand) = (self.name, self.csr, self.rd.0, self.operand);
        match self.call {
            Call::Register(_) => write!(f, "{name} x{rd}, {csr}, x{operand}"),
            Call::Immediate(_) => write!(f, "{name} x{rd}, {csr}, {operand}"),
            Call::Return(_) => f.write_str(name),
        }
    }
}
