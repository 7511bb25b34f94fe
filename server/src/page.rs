//! Prometheus' text format.
use crate::lines::Verb;
use crate::tally::{bound_of, Tally, BUCKETS};
use std::collections::BTreeSet;
use std::fmt::{Display, Write};
use std::time::Duration;

#[derive(Clone, Copy)]
pub enum Kind {
    Counter,
    Gauge,
    Histogram,
}

#[derive(Default)]
pub struct Page(pub String);

impl Page {
    /// Begins a metric.
    pub fn about(&mut self, name: &str, kind: Kind, help: &str) {
        let kind = match kind {
            Kind::Counter => "counter",
            Kind::Gauge => "gauge",
            Kind::Histogram => "histogram",
        };
        let _ = write!(self.0, "# HELP covetrivet_{name} {help}\n# TYPE covetrivet_{name} {kind}\n");
    }

    /// A value of it. The labels are with their braces.
    pub fn value(&mut self, name: &str, labels: &str, value: impl Display) {
        let _ = writeln!(self.0, "covetrivet_{name}{labels} {value}");
    }

    pub fn one(&mut self, name: &str, kind: Kind, help: &str, value: impl Display) {
        self.about(name, kind, help);
        self.value(name, "", value);
    }

    pub fn many<L: Display, V: Display>(
        &mut self,
        name: &str,
        kind: Kind,
        help: &str,
        label: &str,
        values: impl Iterator<Item = (L, V)>,
    ) {
        self.about(name, kind, help);
        for (it, value) in values {
            self.value(name, &format!("{{{label}=\"{it}\"}}"), value);
        }
    }

    /// What the server has counted.
    pub fn tally(&mut self, it: &Tally) {
        use Kind::Counter;
        self.one("connections_total", Counter, "Connections that clients have made.", it.connected);
        let let_go = it.let_go.iter().map(|it| (it.0.word(), it.1));
        self.many("let_go_total", Counter, "Connections that the server let go, by why.", "why", let_go);
        let answers = Verb::ALL.iter().zip(it.answers).filter(|it| it.1 > 0).map(|it| (it.0.word(), it.1));
        self.many("answers_total", Counter, "Answers, by the first word of their lines.", "command", answers);
        self.many("refusals_total", Counter, "Answers that refuse, by why.", "why", it.refusals.iter());
        self.one("unanswered_lines_total", Counter, "Empty lines and comments.", it.unanswered);
        self.one(
            "wait_tries_total",
            Counter,
            "Lines that were sent once more for clients that wait.",
            it.tries,
        );
        self.one(
            "orphans_aborted_total",
            Counter,
            "Units of clients that were gone, which the server aborted.",
            it.aborted,
        );
        self.one(
            "session_restarts_total",
            Counter,
            "How often the session went on in another process.",
            it.restarts,
        );
        self.one("client_bytes_total", Counter, "Bytes that came from clients.", it.bytes_in);
        self.one("answer_bytes_total", Counter, "Bytes of answers that the system took.", it.bytes_out);
        self.waited(it);
    }

    fn waited(&mut self, it: &Tally) {
        let name = "answer_seconds";
        self.about(name, Kind::Histogram, "For how long lines waited for their answers in the server.");
        let mut all = 0;
        for (at, many) in it.buckets.iter().enumerate() {
            all += many;
            let bound = if at == BUCKETS { "+Inf".to_string() } else { bound_of(at).to_string() };
            self.value("answer_seconds_bucket", &format!("{{le=\"{bound}\"}}"), all);
        }
        self.value("answer_seconds_sum", "", format!("{:.6}", it.waited.as_secs_f64()));
        self.value("answer_seconds_count", "", all);
    }

    /// The answer to `count`.
    pub fn counted(&mut self, answer: &str) {
        let words: Vec<&str> = answer.split(' ').collect();
        let pairs = words.chunks_exact(2).map(|it| (it[0], it[1]));
        self.many("elements", Kind::Gauge, "Elements, by status.", "status", pairs);
    }

    /// The answer to `depth`. A stage that had any is told where it has none, too: that a number is left out
    /// doesn't say that it is 0.
    pub fn depths(&mut self, answer: &str, stages: &mut BTreeSet<u16>) {
        let told = rows_of(answer);
        stages.extend(told.iter().map(|it| it.0));
        self.about(
            "stage_elements",
            Kind::Gauge,
            "Elements of each stage, by whether they wait, are held or parked.",
        );
        for stage in stages.iter() {
            let row = told.iter().find(|it| it.0 == *stage).map_or(["0"; 3], |it| it.1);
            for (state, value) in ["waiting", "held", "parked"].into_iter().zip(row) {
                self.value("stage_elements", &format!("{{stage=\"{stage}\",state=\"{state}\"}}"), value);
            }
        }
    }

    /// How old the oldest is that waits in each of these stages.
    pub fn oldest(&mut self, them: impl Iterator<Item = (u16, Duration)>) {
        let help = "How long ago the first was born that waits in a stage, at least.";
        let them = them.map(|it| (it.0, format!("{:.3}", it.1.as_secs_f64())));
        self.many("stage_oldest_seconds", Kind::Gauge, help, "stage", them);
    }
}

/// The rows of an answer to `depth`: a stage, and how many wait, are held and are parked there.
pub fn rows_of(answer: &str) -> Vec<(u16, [&str; 3])> {
    let row = |word: &'_ str| -> Option<u16> { word.split(':').next()?.parse().ok() };
    let words = answer.split(' ').skip(1);
    let rows = words.filter_map(|word| {
        let mut counts = word.split(':').skip(1);
        Some((row(word)?, [counts.next()?, counts.next()?, counts.next()?]))
    });
    rows.collect()
}

#[cfg(test)]
mod tests {
    use super::*;

    #[test]
    fn stages_that_had_any() {
        let mut stages = BTreeSet::from([7]);
        let mut page = Page::default();
        page.depths("depth 1:2:1:0 12:0:0:3", &mut stages);
        let held = "covetrivet_stage_elements{stage=\"1\",state=\"held\"} 1\n";
        let none = "covetrivet_stage_elements{stage=\"7\",state=\"waiting\"} 0\n";
        assert!(page.0.contains(held) && page.0.contains(none) && stages.len() == 3, "{}", page.0);
        assert!(rows_of("depth").is_empty() && rows_of("refused 3 BadStage").is_empty());
    }

    #[test]
    fn histograms_add_up() {
        let mut tally = Tally::new(0);
        for micros in [3, 20, 20, 1 << 40] {
            tally.hear(Verb::Count, crate::lines::Name::NONE, b"waiting 0", Duration::from_micros(micros));
        }
        let mut page = Page::default();
        page.tally(&tally);
        for line in [
            "bucket{le=\"0.000008\"} 1",
            "bucket{le=\"0.000032\"} 3",
            "bucket{le=\"33.554432\"} 3",
            "bucket{le=\"+Inf\"} 4",
            "count 4",
        ] {
            assert!(
                page.0.contains(&format!("covetrivet_answer_seconds_{line}\n")),
                "{line} isn't in {}",
                page.0
            );
        }
    }
}
