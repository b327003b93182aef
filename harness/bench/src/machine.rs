//! What the head of the table says about the machine and the day.

use std::env::consts::ARCH;
use std::fs;
use std::process::Command;
use std::thread;
use std::time::{SystemTime, UNIX_EPOCH};

/// The processor's name and kind.
pub fn processor() -> String {
    let text = fs::read_to_string("/proc/cpuinfo").unwrap_or_default();
    let name = field(&text, "model name").or_else(name_by_lscpu);
    let name = name.unwrap_or_else(|| "unknown".to_owned());
    match (field(&text, "cpu family"), field(&text, "model\t")) {
        (Some(family), Some(model)) => format!("{name} ({ARCH}, family {family}, model {model})"),
        _ => format!("{name} ({ARCH})"),
    }
}

/// What stands after the colon in the first line that begins so.
fn field(text: &str, name: &str) -> Option<String> {
    let line = text
        .lines()
        .find(|line| line.trim_start().starts_with(name))?;
    Some(line.split_once(':')?.1.trim().to_owned())
}

/// On aarch64 /proc/cpuinfo has only numbers; lscpu knows the names for them.
fn name_by_lscpu() -> Option<String> {
    let said = Command::new("lscpu").env("LC_ALL", "C").output().ok()?;
    field(&String::from_utf8_lossy(&said.stdout), "Model name")
}

pub fn cores() -> usize {
    thread::available_parallelism().map_or(1, usize::from)
}

/// Today in Greenwich, as year-month-day.
pub fn today() -> String {
    let since = SystemTime::now().duration_since(UNIX_EPOCH);
    let (year, month, day) = date(since.map_or(0, |time| time.as_secs() / 86_400));
    format!("{year}-{month:02}-{day:02}")
}

/// The date so many days after 1970-01-01.
fn date(days: u64) -> (u64, u64, u64) {
    let (mut year, mut left) = (1970, days);
    loop {
        let leap = year % 4 == 0 && (year % 100 != 0 || year % 400 == 0);
        let length = if leap { 366 } else { 365 };
        if left < length {
            let (month, day) = month_and_day(left, leap);
            return (year, month, day);
        }
        left -= length;
        year += 1;
    }
}

fn month_and_day(mut day: u64, leap: bool) -> (u64, u64) {
    let february = if leap { 29 } else { 28 };
    let lengths = [31, february, 31, 30, 31, 30, 31, 31, 30, 31, 30, 31];
    let mut month = 0;
    while day >= lengths[month] {
        day -= lengths[month];
        month += 1;
    }
    (month as u64 + 1, day + 1)
}

#[cfg(test)]
mod tests {
    use super::date;

    #[test]
    fn dates() {
        assert_eq!(date(0), (1970, 1, 1));
        assert_eq!(date(59), (1970, 3, 1));
        assert_eq!(date(11_016), (2000, 2, 29));
        assert_eq!(date(20_088), (2024, 12, 31));
    }
}
