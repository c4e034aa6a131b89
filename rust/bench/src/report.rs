//! The tables: one format for all parts, a row printed as soon as it is measured.

/// A table of times: some labels, the product's time, and each Rust call's with the ratio.
pub struct Table {
    widths: Vec<usize>,
    labels: usize,
}

impl Table {
    /// Prints the heading; `more` are columns behind the ratios.
    pub fn new(labels: &[(&str, usize)], calls: &[&str], more: &[&str]) -> Self {
        let mut cells: Vec<String> = labels.iter().map(|(label, _)| label.to_string()).collect();
        cells.push("product".into());
        for call in calls {
            cells.extend([call.to_string(), "ratio".into()]);
        }
        cells.extend(more.iter().map(|label| label.to_string()));
        let least = labels.iter().map(|(_, width)| *width);
        let least = least.chain(std::iter::repeat(7));
        let widths = cells.iter().zip(least);
        let table = Table {
            widths: widths.map(|(cell, least)| cell.len().max(least)).collect(),
            labels: labels.len(),
        };
        table.print(&cells);
        let rule = table.widths.iter().enumerate();
        let rule = rule.map(|(place, width)| match place < table.labels {
            true => "-".repeat(*width),
            false => format!("{}:", "-".repeat(width - 1)),
        });
        table.print(&rule.collect::<Vec<_>>());
        table
    }

    /// Prints a row of times in nanoseconds, the product's first.
    pub fn row(&self, labels: &[&str], times: &[f64], more: &[String]) {
        let mut cells: Vec<String> = labels.iter().map(|label| label.to_string()).collect();
        cells.push(nanoseconds(times[0]));
        for rust in &times[1..] {
            cells.extend([nanoseconds(*rust), format!("{:.2}", times[0] / rust)]);
        }
        cells.extend_from_slice(more);
        self.print(&cells);
    }

    fn print(&self, cells: &[String]) {
        let cells = cells.iter().zip(&self.widths).enumerate();
        let line = cells.map(|(place, (cell, &width))| match place < self.labels {
            true => format!("| {cell:<width$} "),
            false => format!("| {cell:>width$} "),
        });
        println!("{}|", line.collect::<String>());
    }
}

/// One decimal where it tells something.
fn nanoseconds(time: f64) -> String {
    match time < 100.0 {
        true => format!("{time:.1}"),
        false => grouped(time.round() as u64),
    }
}

/// With a comma before every three digits.
pub fn grouped(number: u64) -> String {
    match number < 1_000 {
        true => number.to_string(),
        false => format!("{},{:03}", grouped(number / 1_000), number % 1_000),
    }
}

#[cfg(test)]
mod tests {
    use super::{grouped, nanoseconds};

    #[test]
    fn numbers_are_grouped() {
        let shown = [0, 999, 1_000, 65_535, 1_002_003].map(grouped);
        assert_eq!(shown, ["0", "999", "1,000", "65,535", "1,002,003"]);
        assert_eq!(
            [9.96, 99.94, 4_096.5].map(nanoseconds),
            ["10.0", "99.9", "4,097"]
        );
    }
}
