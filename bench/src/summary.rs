//! Rows as lines: what a process prints for each, and what is printed of all processes together.

use std::fmt;
use std::str::FromStr;

/// The ratios of a row in one process. As text: group, row and ratios, with a tab between them.
#[derive(Clone, Debug, PartialEq)]
pub struct Line {
    /// What the row stands under.
    pub group: String,
    pub row: String,
    /// One at least.
    pub ratios: Vec<f64>,
}

impl Line {
    pub fn new(group: &str, row: &str, ratios: Vec<f64>) -> Line {
        Line { group: group.to_string(), row: row.to_string(), ratios }
    }
}

impl fmt::Display for Line {
    fn fmt(&self, f: &mut fmt::Formatter<'_>) -> fmt::Result {
        let ratios: Vec<String> = self.ratios.iter().map(|ratio| format!("{ratio:.5}")).collect();
        write!(f, "{}\t{}\t{}", self.group, self.row, ratios.join(" "))
    }
}

impl FromStr for Line {
    type Err = String;

    fn from_str(text: &str) -> Result<Line, String> {
        let wrong = || format!("no line of a process: {text:?}");
        let parts: Vec<&str> = text.split('\t').collect();
        let [group, row, ratios] = parts[..] else {
            return Err(wrong());
        };
        let ratios: Option<Vec<f64>> = ratios.split(' ').map(|ratio| ratio.parse().ok()).collect();
        Ok(Line::new(group, row, ratios.ok_or_else(wrong)?))
    }
}

/// The one in the middle, or between the two in the middle.
pub fn median(numbers: &[f64]) -> f64 {
    let mut numbers = numbers.to_vec();
    numbers.sort_by(f64::total_cmp);
    let middle = numbers.len() / 2;
    if numbers.len() % 2 == 1 {
        numbers[middle]
    } else {
        (numbers[middle - 1] + numbers[middle]) / 2.0
    }
}

/// The figures of a row over the processes.
#[derive(Clone, Copy, Debug, PartialEq)]
pub struct Figures {
    pub median: f64,
    pub least: f64,
    pub greatest: f64,
}

impl fmt::Display for Figures {
    fn fmt(&self, f: &mut fmt::Formatter<'_>) -> fmt::Result {
        let [median, least, greatest] = [self.median, self.least, self.greatest].map(digits);
        write!(f, "{median} ({least} to {greatest})")
    }
}

/// Two digits behind the point; three where two would say little.
fn digits(number: f64) -> String {
    if number < 0.1 {
        format!("{number:.3}")
    } else {
        format!("{number:.2}")
    }
}

impl Figures {
    /// Median and range of what the processes came to, each to the median of its rounds.
    fn of(lines: &[&Line]) -> Figures {
        let medians: Vec<f64> = lines.iter().map(|line| median(&line.ratios)).collect();
        let least = medians.iter().copied().fold(f64::INFINITY, f64::min);
        let greatest = medians.iter().copied().fold(f64::NEG_INFINITY, f64::max);
        Figures { median: median(&medians), least, greatest }
    }

    /// The figures that were printed.
    fn parse(text: &str) -> Option<Figures> {
        let (median, range) = text.strip_suffix(')')?.split_once(" (")?;
        let (least, greatest) = range.split_once(" to ")?;
        Some(Figures { median: median.parse().ok()?, least: least.parse().ok()?, greatest: greatest.parse().ok()? })
    }
}

/// What is printed of these processes: the rows below their groups, in the order of the first process. An error where
/// two of them have not measured the same rows.
pub fn summary(processes: &[Vec<Line>]) -> Result<String, String> {
    let first = processes.first().ok_or("no process")?;
    let name = |line: &Line| (line.group.clone(), line.row.clone());
    for (i, lines) in processes.iter().enumerate() {
        if !lines.iter().map(name).eq(first.iter().map(name)) {
            return Err(format!("process {} has measured other rows than the first one", i + 1));
        }
    }
    let width = first.iter().map(|line| line.row.len()).max().unwrap_or(0);
    let mut text = String::new();
    let mut group = None;
    for (i, line) in first.iter().enumerate() {
        if group.replace(&line.group) != Some(&line.group) {
            text += &format!("{}:\n", line.group);
        }
        let rows: Vec<&Line> = processes.iter().map(|lines| &lines[i]).collect();
        text += &format!("  {:width$}  {}\n", line.row, Figures::of(&rows));
    }
    Ok(text)
}

/// The rows of a printed summary: group, row and figures. Other lines are passed over.
pub fn rows(printed: &str) -> Vec<(&str, &str, Figures)> {
    let mut group = "";
    let mut rows = Vec::new();
    for line in printed.lines() {
        let Some(row) = line.strip_prefix("  ") else {
            group = line.strip_suffix(':').unwrap_or(line);
            continue;
        };
        let row = row.split_once("  ").and_then(|(row, figures)| Some((row, Figures::parse(figures.trim_start())?)));
        rows.extend(row.map(|(row, figures)| (group, row, figures)));
    }
    rows
}
