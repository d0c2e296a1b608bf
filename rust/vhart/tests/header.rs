//! The sizes, the bits of misa, mip, mstatus and menvcfg, and the layout of the totals: the binding
//! has those of include/vhart.h.

use std::collections::BTreeMap;
use std::fs;
use std::mem::{align_of, offset_of, size_of};

use vhart::{
    menvcfg, mip, misa, mstatus, Totals, CAPS_BYTES, ENTRY_BYTES, HART_BYTES, RESULT_BYTES,
    SETTINGS_BYTES, WAIT_BYTES,
};

const HEADER: &str = concat!(env!("CARGO_MANIFEST_DIR"), "/../../include/vhart.h");

/// The name as the header has it, with the value.
macro_rules! constants {
    ($($module:ident { $($name:ident)* })*) => {
        [$($((
            concat!("VHART_", stringify!($module), "_", stringify!($name)).to_uppercase(),
            u64::from($module::$name),
        ),)*)*]
    };
}

/// A line that defines bits: `#define NAME (UINT64_C(bits) << place)`, or a number alone.
fn defined(line: &str) -> Option<(String, u64)> {
    let mut tokens = line.strip_prefix("#define ")?.split_whitespace();
    let (name, value) = (tokens.next()?, tokens.next()?);
    let value = match value.strip_prefix("(UINT64_C(") {
        None => value.parse().ok()?,
        Some(bits) => {
            let bits: u64 = bits.strip_suffix(')')?.parse().ok()?;
            let place: u32 = tokens.nth(1)?.strip_suffix(')')?.parse().ok()?;
            bits << place
        }
    };
    Some((name.to_string(), value))
}

fn header() -> Result<String, String> {
    fs::read_to_string(HEADER).map_err(|why| format!("{HEADER}: {why}"))
}

/// What the header defines under names that pass.
fn of_header(passes: impl Fn(&str) -> bool) -> Result<BTreeMap<String, u64>, String> {
    let text = header()?;
    let all = text.lines().filter_map(defined);
    Ok(all.filter(|(name, _)| passes(name)).collect())
}

#[test]
fn sizes_are_those_of_the_header() -> Result<(), String> {
    let sizes = of_header(|name| name.ends_with("_BYTES"))?;
    assert!(!sizes.is_empty());
    for (name, bytes) in sizes {
        let ours = match name.as_str() {
            "VHART_CAPS_BYTES" => CAPS_BYTES,
            "VHART_HART_BYTES" => HART_BYTES,
            "VHART_SETTINGS_BYTES" => SETTINGS_BYTES,
            "VHART_ENTRY_BYTES" => ENTRY_BYTES,
            "VHART_RESULT_BYTES" => RESULT_BYTES,
            "VHART_WAIT_BYTES" => WAIT_BYTES,
            _ => return Err(format!("the binding has no {name}")),
        };
        assert_eq!(ours as u64, bytes, "{name}");
    }
    Ok(())
}

#[test]
fn bits_are_those_of_the_header() -> Result<(), String> {
    let ours = BTreeMap::from(constants! {
        misa { RV64 A B C D F I M Q S U V X }
        mip { SSIP MSIP STIP MTIP SEIP MEIP LCOFIP }
        mstatus { SIE MIE SPIE MPIE SPP VS MPP MPP_SHIFT FS MPRV SUM MXR TVM TW TSR UXL SXL SD }
        menvcfg { FIOM CBIE CBCFE CBZE PBMTE STCE }
    });
    let prefixes = [
        "VHART_MISA_",
        "VHART_MIP_",
        "VHART_MSTATUS_",
        "VHART_MENVCFG_",
    ];
    let theirs = of_header(|name| prefixes.iter().any(|prefix| name.starts_with(prefix)))?;
    assert_eq!(ours, theirs);
    Ok(())
}

/// A line `uint32_t NAME;` or `uint32_t NAME[COUNT];`: the name, and how many numbers it is.
fn field(line: &str) -> Option<(&str, usize)> {
    let (field, _) = line.trim().strip_prefix("uint32_t ")?.split_once(';')?;
    match field.split_once('[') {
        None => Some((field, 1)),
        Some((name, count)) => Some((name, count.strip_suffix(']')?.parse().ok()?)),
    }
}

#[test]
fn totals_are_laid_out_as_in_the_header() -> Result<(), String> {
    let text = header()?;
    let (before, _) = text
        .split_once("} vhart_totals;")
        .ok_or("the header has no totals")?;
    let (_, fields) = before
        .rsplit_once("typedef struct {\n")
        .ok_or("the totals are no struct")?;
    let mut theirs = Vec::new();
    let mut end = 0;
    for line in fields.lines() {
        let (name, count) = field(line).ok_or(format!("not a field: {line}"))?;
        theirs.push((name, end));
        end += 4 * count;
    }
    let ours = [
        ("lost", offset_of!(Totals, lost)),
        ("writes", offset_of!(Totals, writes)),
        ("lossless", offset_of!(Totals, lossless)),
    ];
    assert_eq!(theirs, ours);
    assert_eq!((size_of::<Totals>(), align_of::<Totals>()), (end, 4));
    Ok(())
}
