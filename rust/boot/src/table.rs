//! The table of what the firmware did, which is printed before the power goes off.

use vhart::Csr;

use crate::counts::Counts;
use crate::log::Log;
use crate::virt::Part::{Count, Hex, Name, Share, Text};
use crate::virt::{say, show, Part};

pub fn print(counts: &Counts, log: &Log) {
    title("calls of the library, their instructions, and those of one");
    for (name, calls) in counts.calls() {
        let all = counts.instructions(calls.ticks);
        let one = all.checked_div(calls.made).unwrap_or(0);
        row(name, &[Count(calls.made, 8), Count(all, 12), Count(one, 8)]);
    }
    title("calls refused, by number");
    counts.refusals.each().for_each(numbered);
    title("CSR instructions done, by address");
    counts.csrs.each().for_each(of_csr);
    title("CSR instructions refused, by address");
    counts.csrs_refused.each().for_each(of_csr);
    title("interrupts injected, by number");
    counts.injected.each().for_each(numbered);
    title("interrupts of the board, by number");
    counts.interrupts.each().for_each(numbered);
    title("exceptions of the firmware, by cause");
    counts.firmwares_exceptions.each().for_each(numbered);
    title("exceptions of the payload, by cause");
    counts.payloads_exceptions.each().for_each(numbered);
    print_others(counts);
    print_instructions(counts);
    title("the call log");
    for (name, count) in log.counts() {
        row(name, &[Count(count, 8)]);
    }
    say(&[Text("[monitor] end of the table")]);
}

fn print_others(counts: &Counts) {
    title("effects, and what the monitor did itself");
    for (name, count) in [
        ("SEIP set", counts.seip_set),
        ("SEIP cleared", counts.seip_cleared),
        ("PMP registers", counts.pmp),
        ("read-only CSRs written", counts.read_only),
        ("wfi", counts.waits),
        ("sfence.vma", counts.fences),
        ("accesses under MPRV", counts.mprv),
        ("switches of worlds", counts.switches),
    ] {
        row(name, &[Count(count, 8)]);
    }
}

fn print_instructions(counts: &Counts) {
    title("instructions by who ran them");
    let called = counts.library + counts.log;
    let parts = [
        ("payload", counts.payload),
        ("firmware", counts.firmware),
        ("monitor", counts.monitor.saturating_sub(called)),
        ("library", counts.library),
        ("log", counts.log),
    ];
    let all: u64 = parts.iter().map(|(_, ticks)| ticks).sum();
    for (name, ticks) in parts {
        let share = ticks.saturating_mul(10_000).checked_div(all).unwrap_or(0);
        row(name, &[Count(counts.instructions(ticks), 20), Share(share)]);
    }
}

fn title(text: &str) {
    say(&[Text("[monitor] # "), Text(text)]);
}

fn row(name: &str, rest: &[Part]) {
    show(&[Text("[monitor] "), Name(name, 24)]);
    say(rest);
}

fn numbered((number, count): (u64, u64)) {
    say(&[Text("[monitor] "), Count(number, 3), Count(count, 29)]);
}

fn of_csr((address, count): (u64, u64)) {
    let name = Csr(address).name().unwrap_or("");
    show(&[Text("[monitor] 0x"), Hex(address), Text(" ")]);
    say(&[Name(name, 18), Count(count, 8)]);
}
