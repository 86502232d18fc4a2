//! A job as it is written on the command line: `two:7,one:3`.
use corrector::{Entry, Method, Set, MAX_ENTRIES};
use std::fmt::{self, Display};
use std::str::FromStr;

#[derive(Clone, Debug, PartialEq, Eq)]
pub struct Entries(pub Vec<Entry>);

impl FromStr for Entries {
    type Err = String;

    fn from_str(text: &str) -> Result<Self, String> {
        let entries = text.split(',').map(entry).collect::<Result<Vec<_>, _>>()?;
        if entries.len() > MAX_ENTRIES {
            return Err(format!("a job has at most {MAX_ENTRIES} entries, this one has {}", entries.len()));
        }
        Ok(Entries(entries))
    }
}

fn entry(text: &str) -> Result<Entry, String> {
    let (name, confirm) = match text.split_once(':') {
        Some((name, confirm)) => (name, Some(confirm)),
        None => (text, None),
    };
    let method = match name.to_ascii_lowercase().as_str() {
        "one" => Method::One,
        "two" => Method::Two,
        "graph" => Method::Graph,
        "gapsize" | "gap_size" | "gap-size" => Method::GapSize,
        _ => return Err(format!("'{name}' is no method: use one, two, graph or gapsize")),
    };
    let confirm = match (confirm, method) {
        (Some(confirm), _) => confirm.parse().map_err(|_| format!("the confirm of '{text}' is no number from 1 to 255"))?,
        (None, Method::Graph) => 1,
        (None, _) => return Err(format!("'{text}' lacks its confirm: write {name}:5")),
    };
    Entry::new(method, confirm).ok_or_else(|| format!("the confirm of '{text}' must be from 1 to 255"))
}

fn name(method: Method) -> &'static str {
    match method {
        Method::One => "one",
        Method::Two => "two",
        Method::Graph => "graph",
        Method::GapSize => "gapsize",
    }
}

impl Display for Entries {
    fn fmt(&self, to: &mut fmt::Formatter<'_>) -> fmt::Result {
        for (i, entry) in self.0.iter().enumerate() {
            let comma = if i == 0 { "" } else { "," };
            write!(to, "{comma}{}", name(entry.method))?;
            // Graph confirms nothing.
            if entry.method != Method::Graph || entry.confirm.get() != 1 {
                write!(to, ":{}", entry.confirm)?;
            }
        }
        Ok(())
    }
}

impl Entries {
    /// The most lookups for a base beyond the first k, of the entry that may take most (README, "For planners").
    pub fn most_a_base(&self, set: Set) -> u64 {
        let (k, n) = (set.k as u64, set.n as u64);
        let most = |entry: &Entry| {
            let c = u64::from(entry.confirm.get());
            match entry.method {
                Method::One => 12 + 3 * c,
                Method::Two => 69 + 13 * c,
                Method::Graph => 6 + 24 * n,
                Method::GapSize => 17 + k + 3 * c + 24 * n,
            }
        };
        self.0.iter().map(most).max().unwrap_or(0)
    }
}

#[cfg(test)]
mod tests {
    use super::*;

    #[test]
    fn jobs() {
        assert_eq!("two:7,one:3".parse::<Entries>().unwrap().to_string(), "two:7,one:3");
        assert_eq!("Graph,GAP_SIZE:255".parse::<Entries>().unwrap().to_string(), "graph,gapsize:255");
        for wrong in [
            "",
            "one",
            "one:0",
            "one:256",
            "three:1",
            "one:1,",
            "one:1,,two:2",
            "one:-1",
            "one:1:2",
            "one:1,one:1,one:1,one:1,one:1,one:1,one:1,one:1,one:1",
        ] {
            assert!(wrong.parse::<Entries>().is_err(), "{wrong}");
        }
    }
}
