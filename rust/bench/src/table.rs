//! What a call of each entry costs: ratios of the library's time to the peers', and the limits that
//! they are held to.
use std::fmt::{self, Display, Formatter};
use std::iter;

/// library/whole over all.
const ALL_TO_WHOLE: f64 = 1.0;
/// library/whole of each entry, and of each case.
const ENTRY_TO_WHOLE: f64 = 1.1;
/// library/table over all.
const ALL_TO_TABLE: f64 = 1.0;
/// library/table of each entry, and of each case.
const ENTRY_TO_TABLE: f64 = 1.25;
/// A log of a stock of routines replayed by the library to its calls made one by one.
const REPLAY_TO_ONE_BY_ONE: f64 = 0.5;

/// The width of the column with the rows' names.
const NAME_WIDTH: usize = 20;

/// Nanoseconds of a call, in the columns' order.
pub struct Row {
    pub name: &'static str,
    pub ns: Vec<f64>,
}

impl Row {
    /// The library's time as a multiple of another's.
    fn ratio(&self, column: usize) -> f64 {
        self.ns[0] / self.ns[column]
    }
}

pub struct Table {
    /// The library and those beside it.
    columns: Vec<&'static str>,
    entries: Vec<Row>,
    /// Over all: one call of each entry, so the sum of the times and not a mean of the ratios.
    all: Row,
    /// An entry's again, by case: not in the sum.
    cases: Vec<Row>,
    /// Those of the plain entries: not in the sum either, and held to no limit.
    plain: Vec<Row>,
    /// The library's of explain and tally, which are shown as multiples of its write.
    explaining: Vec<Row>,
    /// The library's of an entry of a call log: replayed, and made one by one. The log is of a
    /// stock of routines, and then one of routines drawn anew, which no limit holds.
    replay: [Row; 2],
    shows_ns: bool,
}

impl Table {
    pub fn new(
        columns: Vec<&'static str>,
        entries: Vec<Row>,
        cases: Vec<Row>,
        plain: Vec<Row>,
        explaining: Vec<Row>,
        replay: [Row; 2],
        shows_ns: bool,
    ) -> Table {
        let sum = |column: usize| entries.iter().map(|row| row.ns[column]).sum();
        let ns = (0..columns.len()).map(sum).collect();
        Table {
            columns,
            entries,
            all: Row { name: "all", ns },
            cases,
            plain,
            explaining,
            replay,
            shows_ns,
        }
    }

    /// The ratios above their limits, in words.
    pub fn excesses(&self) -> Vec<String> {
        let entries = self
            .entries
            .iter()
            .chain(&self.cases)
            .flat_map(|row| [(row, "whole", ENTRY_TO_WHOLE), (row, "table", ENTRY_TO_TABLE)]);
        let all = [
            (&self.all, "whole", ALL_TO_WHOLE),
            (&self.all, "table", ALL_TO_TABLE),
        ];
        let to_peers = entries.chain(all).filter_map(|(row, peer, limit)| {
            let column = self.columns.iter().position(|&name| name == peer)?;
            let name = format!("{}: library/{peer}", row.name);
            Some((name, row.ratio(column), limit))
        });
        let replay = (
            "replay/one by one".into(),
            self.replay[0].ratio(1),
            REPLAY_TO_ONE_BY_ONE,
        );
        to_peers
            .chain([replay])
            .filter(|(_, ratio, limit)| ratio > limit)
            .map(|(name, ratio, limit)| format!("{name} is {ratio:.3}, and may be {limit} at most"))
            .collect()
    }
}

impl Display for Table {
    fn fmt(&self, f: &mut Formatter) -> fmt::Result {
        write!(f, "{:NAME_WIDTH$}", "entry")?;
        for column in &self.columns[1..] {
            write!(f, "  {:>16}", format!("library/{column}"))?;
        }
        if self.shows_ns {
            for column in &self.columns {
                write!(f, "  {:>11}", format!("{column} ns"))?;
            }
        }
        writeln!(f)?;
        let entries = self.entries.iter().chain(iter::once(&self.all));
        for row in entries.chain(&self.cases).chain(&self.plain) {
            write!(f, "{:NAME_WIDTH$}", row.name)?;
            for column in 1..self.columns.len() {
                write!(f, "  {:16.2}", row.ratio(column))?;
            }
            if self.shows_ns {
                for ns in &row.ns {
                    write!(f, "  {ns:11.2}")?;
                }
            }
            writeln!(f)?;
        }
        let write = self.entries.iter().find(|row| row.name == "write");
        let to_write = write.into_iter().flat_map(|write| {
            let explaining = self.explaining.iter();
            explaining.map(|row| (row, "write", row.ns[0] / write.ns[0]))
        });
        let replay = self.replay.iter();
        let replay = replay.map(|row| (row, "one by one", row.ratio(1)));
        for (row, other, ratio) in to_write.chain(replay) {
            write!(f, "{}/{other} of the library: {ratio:.2}", row.name)?;
            if self.shows_ns {
                write!(f, ", {:.2} ns", row.ns[0])?;
            }
            writeln!(f)?;
        }
        Ok(())
    }
}

#[cfg(test)]
mod tests {
    use super::{Row, Table};

    /// At the limits, and far from the others: in the sum it would show.
    const CASE: [f64; 3] = [110.0, 100.0, 88.0];

    /// At the limit.
    const REPLAY: [f64; 2] = [20.0, 40.0];

    /// A table of two entries, a case, a plain entry, which is above every limit, of explain and
    /// tally, and of replay, whose second row is above the limit too.
    fn table(times: [[f64; 3]; 2], case: [f64; 3], replay: [f64; 2]) -> Table {
        let row = |name, ns: &[f64]| Row {
            name,
            ns: ns.into(),
        };
        let columns = vec!["library", "whole", "table"];
        Table::new(
            columns,
            vec![row("mret", &times[0]), row("write", &times[1])],
            vec![row("pending_none", &case)],
            vec![row("plain_read", &[900.0, 100.0, 10.0])],
            vec![row("explain", &[12.0]), row("tally", &[15.0])],
            [row("replay", &replay), row("replay_drawn", &[30.0, 40.0])],
            true,
        )
    }

    #[test]
    fn explain_tally_and_replay_are_shown_as_multiples() {
        let shown = table([[1.0, 2.0, 0.5], [5.0, 4.0, 1.0]], CASE, REPLAY).to_string();
        let explain = "\nexplain/write of the library: 2.40, 12.00 ns\n";
        let tally = "tally/write of the library: 3.00, 15.00 ns\n";
        let replay = "replay/one by one of the library: 0.50, 20.00 ns\n";
        let drawn = "replay_drawn/one by one of the library: 0.75, 30.00 ns\n";
        assert!(
            shown.ends_with(&[explain, tally, replay, drawn].concat()),
            "{shown}"
        );
    }

    #[test]
    fn over_all_is_the_sum_of_the_times() {
        let shown = table([[1.0, 2.0, 0.5], [5.0, 4.0, 1.0]], CASE, REPLAY).to_string();
        let all = shown.lines().find(|line| line.starts_with("all"));
        let all = all.expect("a table has this row");
        let all: Vec<&str> = all.split_whitespace().collect();
        let ratios = ["1.00", "4.00"];
        let ns = ["6.00", "6.00", "1.50"];
        assert_eq!(all, [&["all"][..], &ratios, &ns].concat());
    }

    #[test]
    fn at_the_limits_nothing_exceeds() {
        let none: [String; 0] = [];
        let at = table([[11.0, 10.0, 8.8], [9.0, 10.0, 11.2]], CASE, REPLAY);
        assert_eq!(at.excesses(), none);
    }

    #[test]
    fn each_limit_is_held() {
        let entry = table([[12.0, 10.0, 20.0], [1.0, 10.0, 20.0]], CASE, REPLAY).excesses();
        assert_eq!(
            entry,
            ["mret: library/whole is 1.200, and may be 1.1 at most"]
        );
        let whole = table([[10.5, 10.0, 20.0], [10.5, 10.0, 20.0]], CASE, REPLAY).excesses();
        assert_eq!(whole, ["all: library/whole is 1.050, and may be 1 at most"]);
        let case = table(
            [[9.0, 10.0, 10.0], [9.0, 10.0, 10.0]],
            [111.0, 100.0, 85.0],
            REPLAY,
        )
        .excesses();
        assert_eq!(
            case,
            [
                "pending_none: library/whole is 1.110, and may be 1.1 at most",
                "pending_none: library/table is 1.306, and may be 1.25 at most"
            ]
        );
        let table = table([[9.0, 10.0, 7.5], [9.0, 10.0, 7.5]], CASE, REPLAY).excesses();
        assert_eq!(
            table,
            ["all: library/table is 1.200, and may be 1 at most"]
        );
        let replay = self::table([[1.0, 1.0, 1.0]; 2], CASE, [21.0, 40.0]).excesses();
        assert_eq!(
            replay,
            ["replay/one by one is 0.525, and may be 0.5 at most"]
        );
    }
}
