//! The constants of `Csr`: one for each register of docs/RULES.md's table, at its address.

use std::fs;

use vhart::Csr;

const RULES: &str = concat!(env!("CARGO_MANIFEST_DIR"), "/../../docs/RULES.md");

const CONSTANTS: [Csr; 41] = [
    Csr::SEED,
    Csr::SSTATUS,
    Csr::SIE,
    Csr::STVEC,
    Csr::SCOUNTEREN,
    Csr::SENVCFG,
    Csr::SSCRATCH,
    Csr::SEPC,
    Csr::SCAUSE,
    Csr::STVAL,
    Csr::SIP,
    Csr::STIMECMP,
    Csr::SATP,
    Csr::MSTATUS,
    Csr::MISA,
    Csr::MEDELEG,
    Csr::MIDELEG,
    Csr::MIE,
    Csr::MTVEC,
    Csr::MCOUNTEREN,
    Csr::MENVCFG,
    Csr::MCOUNTINHIBIT,
    Csr::MHPMEVENT3,
    Csr::MSCRATCH,
    Csr::MEPC,
    Csr::MCAUSE,
    Csr::MTVAL,
    Csr::MIP,
    Csr::SCONTEXT,
    Csr::TSELECT,
    Csr::MCYCLE,
    Csr::MINSTRET,
    Csr::MHPMCOUNTER3,
    Csr::CYCLE,
    Csr::TIME,
    Csr::INSTRET,
    Csr::MVENDORID,
    Csr::MARCHID,
    Csr::MIMPID,
    Csr::MHARTID,
    Csr::MCONFIGPTR,
];

/// A row of the table: the first and the last address, and the names of the registers there.
fn row(line: &str) -> Option<(u64, u64, &str, &str)> {
    let mut cells = line.strip_prefix("| ")?.split(" | ");
    let (addresses, names) = (cells.next()?, cells.next()?);
    let (first, last) = addresses.split_once('-').unwrap_or((addresses, addresses));
    let (first, last) = (
        u64::from_str_radix(first, 16),
        u64::from_str_radix(last, 16),
    );
    let (first_name, last_name) = names.split_once(" to ").unwrap_or((names, names));
    Some((first.ok()?, last.ok()?, first_name, last_name))
}

#[test]
fn constants_are_the_registers_of_the_rules() -> Result<(), String> {
    let text = fs::read_to_string(RULES).map_err(|why| format!("{RULES}: {why}"))?;
    let table = text
        .lines()
        .skip_while(|line| *line != "## Registers")
        .take_while(|line| *line != "## CSR instructions");
    let rows: Vec<_> = table.filter_map(row).collect();
    assert_eq!(rows.len(), CONSTANTS.len());
    for ((first, last, first_name, last_name), csr) in rows.into_iter().zip(CONSTANTS) {
        assert_eq!((csr, csr.to_string().as_str()), (Csr(first), first_name));
        assert_eq!(Csr(last).to_string(), last_name);
    }
    Ok(())
}
