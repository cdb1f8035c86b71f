//! The report: text and tables in Markdown, with the machine and the date.

use std::fmt;
use std::process::Command;
use std::thread;

#[derive(Default)]
pub struct Report {
    text: String,
}

/// The report's head: what is measured, on which machine and when.
pub fn start() -> Report {
    let mut report = Report::default();
    report.line("# Benchmark");
    report.line("");
    report.line("Made by `bench/run` in one run; docs/benchmark.svg is its plot. bench/README.md says how each figure is measured.");
    report.line(&format!(
        "Machine: {}, {} processors. Date: {}.",
        processor(),
        thread::available_parallelism().map_or(0, usize::from),
        date()
    ));
    report
}

impl Report {
    pub fn line(&mut self, line: &str) {
        self.text += line;
        self.text += "\n";
    }

    pub fn heading(&mut self, title: &str, note: &str) {
        self.line(&format!("\n## {title}\n\n{note}\n"));
    }

    /// A table whose first column is text and whose others are numbers.
    pub fn table(&mut self, heads: &[String], rows: &[Vec<String>]) {
        let row = |cells: &[String]| format!("| {} |", cells.join(" | "));
        self.line(&row(heads));
        let rule: String = heads.iter().skip(1).map(|_| "---:|").collect();
        self.line(&format!("|---|{rule}"));
        for cells in rows {
            self.line(&row(cells));
        }
    }
}

impl fmt::Display for Report {
    fn fmt(&self, f: &mut fmt::Formatter) -> fmt::Result {
        f.write_str(&self.text)
    }
}

fn processor() -> String {
    let info = std::fs::read_to_string("/proc/cpuinfo").unwrap_or_default();
    let model = info.lines().find_map(|line| line.strip_prefix("model name")?.split_once(": "));
    model.map_or("unknown processor", |(_, name)| name).to_string()
}

fn date() -> String {
    let said = Command::new("date").args(["-u", "+%Y-%m-%d"]).output();
    let said = said.ok().and_then(|output| String::from_utf8(output.stdout).ok());
    said.map_or("unknown".into(), |date| date.trim().to_string())
}

/// A time in nanoseconds, with as many decimals as it deserves.
pub fn ns(time: f64) -> String {
    if time < 10.0 {
        format!("{time:.3}")
    } else {
        format!("{time:.0}")
    }
}
