//! What the server writes on standard error.
use std::io::{self, Write};
use std::time::{Instant, SystemTime, UNIX_EPOCH};

/// More lines about clients aren't written in a second: who reads standard error may be slow.
const LINES_A_SECOND: u32 = 10;
const SECONDS_A_DAY: u64 = 86_400;

pub fn say(text: &str) {
    let _ = writeln!(io::stderr(), "covetrivet: {text}");
}

/// Lines with the time before them, of which there are not too many.
pub struct Log {
    since: Instant,
    written: u32,
    left_out: u64,
}

impl Log {
    pub fn new() -> Log {
        Log { since: Instant::now(), written: 0, left_out: 0 }
    }

    pub fn write(&mut self, text: &str) {
        if self.since.elapsed().as_secs() > 0 {
            (self.since, self.written) = (Instant::now(), 0);
        }
        if self.written == LINES_A_SECOND {
            self.left_out += 1;
            return;
        }
        self.written += 1;
        let more = match std::mem::take(&mut self.left_out) {
            0 => String::new(),
            many => format!(" ({many} lines were left out before)"),
        };
        say(&format!("{} {text}{more}", time_of(seconds_now())));
    }
}

fn seconds_now() -> u64 {
    SystemTime::now().duration_since(UNIX_EPOCH).map_or(0, |it| it.as_secs())
}

/// A time in UTC, as 2026-11-30T04:05:06Z. The days are counted from 1 March of the year 0.
fn time_of(seconds: u64) -> String {
    let (days, second) = (seconds / SECONDS_A_DAY + 719_468, seconds % SECONDS_A_DAY);
    let (era, day) = (days / 146_097, days % 146_097);
    let year = (day - day / 1_460 + day / 36_524 - day / 146_096) / 365;
    let day = day - (365 * year + year / 4 - year / 100);
    let month = (5 * day + 2) / 153;
    let day = day - (153 * month + 2) / 5 + 1;
    let month = if month < 10 { month + 3 } else { month - 9 };
    let year = 400 * era + year + u64::from(month <= 2);
    let (hour, minute, second) = (second / 3600, second / 60 % 60, second % 60);
    format!("{year:04}-{month:02}-{day:02}T{hour:02}:{minute:02}:{second:02}Z")
}

#[cfg(test)]
mod tests {
    use super::*;

    #[test]
    fn times() {
        assert_eq!(time_of(0), "1970-01-01T00:00:00Z");
        assert_eq!(time_of(951_827_696), "2000-02-29T12:34:56Z");
        assert_eq!(time_of(1_796_011_508), "2026-11-30T04:05:08Z");
        assert_eq!(time_of(4_107_542_399), "2100-02-28T23:59:59Z");
    }
}
