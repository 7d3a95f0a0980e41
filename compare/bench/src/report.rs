//! The tables, aligned for people or as markdown, and what they say.

use crate::measure::{Line, Times};
use crate::work::Table;

/// A line above this is named at the end.
const HIGH: f64 = 1.5;

/// How high the lines that begin with these words may be, each on its own.
const LIMITS: [(&str, f64); 2] = [("whole cycle", 1.0), ("SHA-256", 1.2)];

/// Linear: the time for each byte of the largest file is at most so many times that of a file of 4 KiB.
const LINEAR: f64 = 1.5;

/// The size with which the largest is compared.
const COMPARED: usize = 4_096;

/// The tables and what they say.
pub fn written(lines: &[Line], markdown: bool) -> String {
    let of = |table| {
        let rows = lines.iter().filter(|line| line.work.table == table).map(Row::new);
        rows.collect::<Vec<_>>()
    };
    let (times, growth) = (of(Table::Times), of(Table::Growth));
    let mut written = table_written(TIMES_HEAD, times.iter().map(Row::cells), markdown);
    written += &table_written(GROWTH_HEAD, growth.iter().map(Row::cells_per_byte), markdown);
    for verdict in verdicts(&times, &growth) {
        let mark = if markdown { "- " } else { "" };
        written += &format!("{mark}{verdict}\n");
    }
    written
}

const TIMES_HEAD: Cells<&str> = [
    "what",
    "bytes",
    "Rattle, us",
    "ordinary, us",
    "ratio",
    "one pass, us",
    "ratio",
];
const GROWTH_HEAD: Cells<&str> = [
    "what",
    "bytes",
    "Rattle, ns/byte",
    "ordinary, ns/byte",
    "ratio",
    "one pass, ns/byte",
    "ratio",
];

/// What stands in a line of a table.
type Cells<T> = [T; COLUMNS];
const COLUMNS: usize = 7;

/// What the library is measured against.
#[derive(Clone, Copy)]
enum Baseline {
    Ordinary,
    OnePass,
}

impl Baseline {
    const ALL: [Baseline; 2] = [Baseline::Ordinary, Baseline::OnePass];

    fn name(self) -> &'static str {
        match self {
            Baseline::Ordinary => "ordinary",
            Baseline::OnePass => "one pass",
        }
    }

    fn time(self, times: &Times) -> f64 {
        match self {
            Baseline::Ordinary => times.ordinary,
            Baseline::OnePass => times.one_pass,
        }
    }
}

/// A line of a table before it is written.
struct Row {
    name: String,
    bytes: usize,
    times: Times,
}

impl Row {
    fn new(line: &Line) -> Row {
        Row {
            name: line.work.name.clone(),
            bytes: line.work.shelves[0].bytes(),
            times: line.times(),
        }
    }

    fn cells(&self) -> Cells<String> {
        self.cells_with(|micros| format!("{micros:.2}"))
    }

    fn cells_per_byte(&self) -> Cells<String> {
        self.cells_with(|micros| format!("{:.2}", per_byte(micros, self.bytes)))
    }

    fn cells_with(&self, time: impl Fn(f64) -> String) -> Cells<String> {
        [
            self.name.clone(),
            self.bytes.to_string(),
            time(self.times.rattle),
            time(self.times.ordinary),
            format!("{:.2}", self.ratio(Baseline::Ordinary)),
            time(self.times.one_pass),
            format!("{:.2}", self.ratio(Baseline::OnePass)),
        ]
    }

    /// How many times the baseline's time the library takes.
    fn ratio(&self, baseline: Baseline) -> f64 {
        self.times.rattle / baseline.time(&self.times)
    }

    /// The name with the ratio.
    fn named(&self, baseline: Baseline) -> String {
        format!("{} ({:.2})", self.name, self.ratio(baseline))
    }
}

/// Nanoseconds for each byte.
fn per_byte(micros: f64, bytes: usize) -> f64 {
    micros * 1e3 / bytes as f64
}

/// What the tables say, a sentence each.
fn verdicts(times: &[Row], growth: &[Row]) -> Vec<String> {
    let mut verdicts = Vec::new();
    for sizes in growth.chunk_by(|one, other| one.name == other.name) {
        verdicts.extend(growth_verdict(sizes));
    }
    for baseline in Baseline::ALL {
        let said = limit_verdicts(times, baseline).chain([high_verdict(times, baseline)]);
        verdicts.extend(said.map(|said| format!("against {}, {said}", baseline.name())));
    }
    verdicts
}

/// Whether the library keeps to the limits that lines of its own have.
fn limit_verdicts(times: &[Row], baseline: Baseline) -> impl Iterator<Item = String> {
    LIMITS.into_iter().flat_map(move |(words, limit)| {
        let limited = times.iter().filter(move |row| row.name.starts_with(words));
        limited.map(move |row| {
            let is_low = row.ratio(baseline) <= limit;
            let said = if is_low { "at or below" } else { "above" };
            format!("{said} {limit:.1}: {}", row.named(baseline))
        })
    })
}

/// The lines that are high.
fn high_verdict(times: &[Row], baseline: Baseline) -> String {
    let high = times.iter().filter(|row| row.ratio(baseline) > HIGH);
    let high: Vec<String> = high.map(|row| row.named(baseline)).collect();
    if high.is_empty() {
        format!("above {HIGH}: no line")
    } else {
        format!("above {HIGH}: {}", high.join("; "))
    }
}

/// Whether the library's time is linear in the size of the file; and the growth of the baselines' times.
fn growth_verdict(sizes: &[Row]) -> Option<String> {
    let compared = sizes.iter().find(|row| row.bytes == COMPARED)?;
    let largest = sizes.last()?;
    let growth_of = |time: &dyn Fn(&Times) -> f64| {
        per_byte(time(&largest.times), largest.bytes) / per_byte(time(&compared.times), compared.bytes)
    };
    let growth = growth_of(&|times| times.rattle);
    let said = if growth <= LINEAR { "linear" } else { "NOT linear" };
    let others = Baseline::ALL.map(|baseline| {
        let growth = growth_of(&|times| baseline.time(times));
        format!("{} {growth:.2}", baseline.name())
    });
    Some(format!(
        "{said}: {} (a byte of {} takes {growth:.2} times as long as one of {COMPARED}; {})",
        largest.name,
        largest.bytes,
        others.join(", ")
    ))
}

/// A table and an empty line; nothing if it has no rows. The first column stands left, the others right.
fn table_written(head: Cells<&str>, rows: impl Iterator<Item = Cells<String>>, markdown: bool) -> String {
    let mut all = vec![head.map(str::to_string)];
    all.extend(rows);
    if all.len() == 1 {
        return String::new();
    }
    let widths: [usize; COLUMNS] =
        std::array::from_fn(|column| all.iter().map(|row| row[column].len()).max().unwrap_or(0));
    let mut written: Vec<String> = all.iter().map(|row| row_written(row, &widths, markdown)).collect();
    if markdown {
        written.insert(1, rule(&widths));
    }
    written.concat() + "\n"
}

fn row_written(row: &Cells<String>, widths: &[usize; COLUMNS], markdown: bool) -> String {
    let cell = |(word, width): (&String, &usize)| format!("{word:>width$}");
    let mut cells: Vec<String> = row.iter().zip(widths).map(cell).collect();
    cells[0] = format!("{:<width$}", row[0], width = widths[0]);
    if markdown {
        format!("| {} |\n", cells.join(" | "))
    } else {
        format!("{}\n", cells.join("  "))
    }
}

/// The line below a markdown table's head.
fn rule(widths: &[usize; COLUMNS]) -> String {
    let [first, others @ ..] = widths;
    let others: String = others
        .iter()
        .map(|width| format!("{}:|", "-".repeat(width + 1)))
        .collect();
    format!("|{}|{others}\n", "-".repeat(first + 2))
}

#[cfg(test)]
mod tests {
    use super::{Row, TIMES_HEAD, Times, table_written, verdicts};

    fn row(name: &str, bytes: usize, rattle: f64, ordinary: f64, one_pass: f64) -> Row {
        Row {
            name: name.to_string(),
            bytes,
            times: Times {
                rattle,
                ordinary,
                one_pass,
            },
        }
    }

    #[test]
    fn digests_have_a_limit_of_their_own() {
        let times = [
            row("SHA-256 of a", 8, 2.4, 2.0, 2.0),
            row("SHA-256 of b", 8, 2.6, 2.0, 2.4),
        ];
        assert_eq!(
            verdicts(&times, &[]),
            [
                "against ordinary, at or below 1.2: SHA-256 of a (1.20)",
                "against ordinary, above 1.2: SHA-256 of b (1.30)",
                "against ordinary, above 1.5: no line",
                "against one pass, at or below 1.2: SHA-256 of a (1.20)",
                "against one pass, at or below 1.2: SHA-256 of b (1.08)",
                "against one pass, above 1.5: no line",
            ]
        );
    }

    #[test]
    fn high_lines_and_cycles_are_named_for_each_baseline() {
        let times = [
            row("find", 8, 3.0, 2.0, 1.0),
            row("root", 8, 3.2, 2.0, 1.0),
            row("whole cycle: a", 8, 2.0, 2.0, 2.0),
            row("whole cycle: b", 8, 2.2, 2.0, 2.2),
        ];
        assert_eq!(
            verdicts(&times, &[]),
            [
                "against ordinary, at or below 1.0: whole cycle: a (1.00)",
                "against ordinary, above 1.0: whole cycle: b (1.10)",
                "against ordinary, above 1.5: root (1.60)",
                "against one pass, at or below 1.0: whole cycle: a (1.00)",
                "against one pass, at or below 1.0: whole cycle: b (1.00)",
                "against one pass, above 1.5: find (3.00); root (3.20)",
            ]
        );
        assert_eq!(verdicts(&[], &[])[0], "against ordinary, above 1.5: no line");
    }

    #[test]
    fn growth_is_judged_by_the_library_alone() {
        let growth = [
            row("one", 4_096, 4.096, 4.096, 4.096),
            row("one", 32_768, 1.4 * 32.768, 9.0 * 32.768, 32.768),
            row("other", 4_096, 4.096, 4.096, 4.096),
            row("other", 32_768, 1.6 * 32.768, 32.768, 2.0 * 32.768),
        ];
        let said = verdicts(&[], &growth);
        assert_eq!(
            said[0],
            "linear: one (a byte of 32768 takes 1.40 times as long as one of 4096; ordinary 9.00, one pass 1.00)"
        );
        assert_eq!(
            said[1],
            "NOT linear: other (a byte of 32768 takes 1.60 times as long as one of 4096; ordinary 1.00, one pass 2.00)"
        );
    }

    #[test]
    fn tables_for_people_and_as_markdown() {
        let rows = || {
            [row("find: x", 32_768, 12.5, 10.0, 5.0)]
                .into_iter()
                .map(|row| row.cells())
        };
        assert_eq!(
            table_written(TIMES_HEAD, rows(), false),
            "what     bytes  Rattle, us  ordinary, us  ratio  one pass, us  ratio\n\
             find: x  32768       12.50         10.00   1.25          5.00   2.50\n\n"
        );
        assert_eq!(
            table_written(TIMES_HEAD, rows(), true),
            "| what    | bytes | Rattle, us | ordinary, us | ratio | one pass, us | ratio |\n\
             |---------|------:|-----------:|-------------:|------:|-------------:|------:|\n\
             | find: x | 32768 |      12.50 |        10.00 |  1.25 |         5.00 |  2.50 |\n\n"
        );
    }
}
