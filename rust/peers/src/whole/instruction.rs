//! The CSR instructions: read, then write, then rd.
use super::access;
use super::caps::Caps;
use super::hart::Hart;
use crate::arguments::{Host, Instruction};
use crate::outcome::{done, effect, Outcome, Refusal};
use crate::rules::mode;

#[inline(always)]
pub fn emulate(
    instruction: &Instruction,
    caps: &Caps,
    hart: &mut Hart,
    host: &Host,
) -> Result<Outcome, Refusal> {
    let &Instruction {
        address, rd, field, ..
    } = instruction;
    access::check(caps, address)?;
    if rd > 31 || field > 31 {
        return Err(Refusal::BadOperand);
    }
    if hart.mode != mode::M {
        return Err(Refusal::NotMachine);
    }
    access::check_line(host)?;
    let shown = access::read(caps, hart, host, address);
    // without the line, which is shown and not stored
    let old = access::read(caps, hart, &Host { line: 0, ..*host }, address);
    let operand = if instruction.is_immediate() {
        field
    } else {
        hart.x[field as usize]
    };
    let effect = if instruction.writes() {
        access::write(caps, hart, address, instruction.written(old, operand))
    } else {
        effect::NONE
    };
    hart.set_x(rd as usize, shown);
    Ok(done(shown, effect))
}
