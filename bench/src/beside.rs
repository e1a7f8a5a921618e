//! Tables of three programs on the same calls, by turns: the engine's call that the table is about, and two that it
//! stands beside.

use crate::job::Job;
use crate::table::Row;
use std::time::Duration;

const LEAST: Duration = Duration::from_millis(300);

/// A ratio that is shown, and no more.
pub const NO_AIM: f64 = f64::INFINITY;

/// What a time is given for.
pub enum Unit {
    Value,
    /// One of the turns, which are all gone through in one time.
    Turn,
    Call,
}

/// Three programs by turns. The last is the engine's call that the table is about.
pub struct Table {
    pub name: &'static str,
    pub unit: Unit,
    pub programs: [&'static str; 3],
    /// Of the last program's time beside the first's, and beside the second's if that counts: its head, and the aim.
    pub ratios: &'static [(&'static str, f64)],
    pub rows: fn() -> Vec<Row>,
    pub times: fn(&Job, Duration) -> [f64; 3],
    /// What the engine answers otherwise than the oracle.
    pub difference: fn(&Job) -> Option<String>,
}

impl Table {
    /// Nanoseconds a call of each program, and the ratios.
    pub fn measure(&self, job: &Job, least: Duration) -> ([f64; 3], Vec<f64>) {
        let times = (self.times)(job, least);
        (times, self.ratios.iter().zip(times).map(|(_, time)| times[2] / time).collect())
    }

    fn print(&self) -> bool {
        let heads: Vec<&str> = self.programs.into_iter().chain(self.ratios.iter().map(|ratio| ratio.0)).collect();
        println!("| {} | rates | {} |", self.name, heads.join(" | "));
        println!("|---|---|{}", "---:|".repeat(heads.len()));
        (self.rows)().iter().all(|row| self.print_row(row))
    }

    fn print_row(&self, row: &Row) -> bool {
        if let Some(difference) = (self.difference)(&row.job) {
            println!("{}, {}: {difference}", self.name, row.name);
            return false;
        }
        let (times, ratios) = self.measure(&row.job, LEAST);
        let times = times.map(|time| match self.unit {
            Unit::Value => format!("{:.3}", time / row.job.count() as f64),
            Unit::Turn => format!("{:.2}", time / row.job.turns() as f64),
            Unit::Call => grouped(time.round() as u64),
        });
        let cells: Vec<String> = times.into_iter().chain(ratios.iter().map(|ratio| format!("{ratio:.3}"))).collect();
        println!("| {} | {} | {} |", row.name, row.rates, cells.join(" | "));
        true
    }
}

/// A number with a comma between thousands.
pub fn grouped(number: u64) -> String {
    match number {
        0..=999 => number.to_string(),
        _ => format!("{},{:03}", grouped(number / 1000), number % 1000),
    }
}

/// Whether all answers were the same.
pub fn print(tables: &[Table]) -> bool {
    tables.iter().enumerate().all(|(at, table)| {
        if at > 0 {
            println!();
        }
        table.print()
    })
}
