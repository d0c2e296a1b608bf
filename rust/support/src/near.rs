//! Which names a mistyped one may stand for.

/// The names that are nearest, if they are near and few.
pub fn nearest(text: &str, names: impl Iterator<Item = String>) -> Vec<String> {
    let near = names.map(|name| (distance(text, &name), name));
    let mut near: Vec<_> = near
        .filter(|(far, name)| *far <= 2 && *far < name.len().div_ceil(2))
        .collect();
    near.sort();
    let least = near.first().map(|(far, _)| *far);
    near.retain(|(far, _)| Some(*far) == least);
    match near.len() {
        1..=3 => near.into_iter().map(|(_, name)| name).collect(),
        _ => vec![],
    }
}

/// How many letters must be put in, left out, replaced or exchanged with the next one.
fn distance(a: &str, b: &str) -> usize {
    let (a, b): (Vec<_>, Vec<_>) = (a.chars().collect(), b.chars().collect());
    let mut rows = vec![vec![0; b.len() + 1]; a.len() + 1];
    for i in 0..=a.len() {
        for j in 0..=b.len() {
            rows[i][j] = match (i, j) {
                (0, far) | (far, 0) => far,
                _ => {
                    let replaced = rows[i - 1][j - 1] + usize::from(a[i - 1] != b[j - 1]);
                    replaced.min(rows[i - 1][j] + 1).min(rows[i][j - 1] + 1)
                }
            };
            if i > 1 && j > 1 && a[i - 1] == b[j - 2] && a[i - 2] == b[j - 1] {
                rows[i][j] = rows[i][j].min(rows[i - 2][j - 2] + 1);
            }
        }
    }
    rows[a.len()][b.len()]
}

#[cfg(test)]
mod tests {
    use super::{distance, nearest};

    #[test]
    fn names_are_as_far_as_letters_are_mistyped() {
        for (a, b, far) in [
            ("", "", 0),
            ("", "ab", 2),
            ("mstatus", "mstatus", 0),
            ("mstaus", "mstatus", 1),
            ("mstattus", "mstatus", 1),
            ("msatus", "mstatus", 1),
            ("mtsatus", "mstatus", 1),
            ("nstatsu", "mstatus", 2),
            ("mepc", "satp", 4),
        ] {
            assert_eq!((distance(a, b), distance(b, a)), (far, far), "{a} {b}");
        }
    }

    #[test]
    fn the_nearest_are_told_if_they_are_near() {
        let near = |text| {
            nearest(
                text,
                ["mie", "mip", "mstatus", "sstatus"]
                    .map(String::from)
                    .into_iter(),
            )
        };
        assert_eq!(near("mstatsu"), ["mstatus"]);
        assert_eq!(near("status"), ["mstatus", "sstatus"]);
        assert_eq!(near("mi"), ["mie", "mip"]);
        let numbered = || (3..32).map(|n| format!("mhpmcounter{n}"));
        assert!(nearest("mhpmcounter32", numbered()).is_empty());
        assert_eq!(nearest("mphmcounter7", numbered()), ["mhpmcounter7"]);
        assert!(near("x").is_empty() && near("").is_empty() && near("pmpcfg0").is_empty());
    }
}
