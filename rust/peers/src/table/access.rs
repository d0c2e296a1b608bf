//! Reads, writes and the CSR instructions.
use super::by_row;
use super::legality::{faults, faults_but_mode};
use super::{put, refusal, word};
use crate::arguments::{Host, Instruction};
use crate::image::{hart, CapsImage, HartImage};
use crate::outcome::{done, effect, Outcome};
use crate::rules::mode;

#[inline(always)]
pub fn read<const S: bool>(c: &CapsImage, h: &HartImage, host: &Host, address: u64) -> Outcome {
    match by_row::read::<S>(c, h, host, address) {
        Some(read) if faults::<S>(c, h) | host.line >> 1 == 0 => done(read.shown, effect::NONE),
        _ => refusal::of_access(c, h, address),
    }
}

#[inline(always)]
pub fn write<const S: bool>(c: &CapsImage, h: &mut HartImage, address: u64, v: u64) -> Outcome {
    match by_row::write::<S>(c, h, address, v, true) {
        Some(change) if faults::<S>(c, h) == 0 => {
            change.place.put(h, change.word);
            done(0, change.effect)
        }
        _ => refusal::of_access(c, h, address),
    }
}

#[inline(always)]
pub fn emulate<const S: bool>(
    c: &CapsImage,
    h: &mut HartImage,
    host: &Host,
    instruction: &Instruction,
) -> Outcome {
    let &Instruction {
        address, rd, field, ..
    } = instruction;
    let operand = if instruction.is_immediate() {
        field
    } else {
        word(h, (field & 31) as usize)
    };
    let Some(read) = by_row::read::<S>(c, h, host, address) else {
        return refusal::of_instruction(c, h, address, rd, field);
    };
    let v = instruction.written(read.old, operand);
    let Some(change) = by_row::write::<S>(c, h, address, v, instruction.writes()) else {
        return refusal::of_instruction(c, h, address, rd, field);
    };
    let bad = faults_but_mode::<S>(c, h)
        | (rd | field) >> 5
        | word(h, hart::MODE) ^ mode::M
        | host.line >> 1;
    if bad != 0 {
        return refusal::of_instruction(c, h, address, rd, field);
    }
    change.place.put(h, change.word);
    put(h, (rd & 31) as usize, if rd == 0 { 0 } else { read.shown });
    done(read.shown, change.effect)
}
