//! What the server tells of itself, by HTTP.
use crate::arrivals::Arrivals;
use crate::http::{Request, Step, Wanted, MOST, SECONDS, SECONDS_TO_ANSWER};
use crate::life::{Going, Phase};
use crate::lines::{Name, Tag, Verb};
use crate::page::{rows_of, Kind, Page};
use crate::routing::{Asked, By, Whose};
use crate::server::{Server, Source};
use crate::slab::Id;
use crate::timers::Timer;
use std::os::fd::OwnedFd;
use std::time::Duration;

/// The version of the checkout that it was built of.
pub const VERSION: &str = match option_env!("COVETRIVET_VERSION") {
    Some(it) => it,
    None => "unknown",
};
const OK: &str = "200 OK";
const UNAVAILABLE: &str = "503 Service Unavailable";

impl Server {
    /// Somebody connects for a page.
    pub fn page_asked(&mut self, fd: OwnedFd) {
        if self.pages.len() < MOST {
            let id = self.pages.put(Request::new(fd, self.now));
            if let Some(it) = self.pages.get(id) {
                let _ = self.poll.add(it.fd(), it.events(), Source::Page(id).token());
            }
            self.later(SECONDS, Timer::Page(id));
        }
    }

    pub fn page_heard(&mut self, id: Id) {
        let Some(it) = self.pages.get_mut(id) else { return };
        match it.go_on() {
            Step::Waits => (),
            Step::Over => return drop(self.pages.take(id)),
            Step::Asks(wanted) => self.page_wanted(id, wanted),
        }
        if let Some(it) = self.pages.get(id) {
            self.poll.change(it.fd(), it.events(), Source::Page(id).token());
        }
    }

    fn page_wanted(&mut self, id: Id, wanted: Wanted) {
        let page = match wanted {
            Wanted::Metrics => self.own_page(),
            Wanted::Clients => return self.tell_page(id, OK, &self.page_of_clients()),
            Wanted::Health => return self.tell_page(id, OK, &self.health()),
            Wanted::Ready => String::new(),
            Wanted::NotThere => {
                return self.tell_page(id, "404 Not Found", "GET /metrics, /clients, /ready or /healthz\n")
            }
        };
        if let Some(it) = self.pages.get_mut(id) {
            it.page = page;
        }
        if let (Wanted::Ready, Some(why)) = (wanted, self.follows()) {
            return self.tell_page(id, UNAVAILABLE, &format!("{why}\n"));
        }
        if !matches!((&self.phase, &self.going), (Phase::Serves, Going::Runs | Going::Follows)) {
            return self.finish_page(id);
        }
        self.ask_for_page(id, Verb::Count, "count");
        if wanted == Wanted::Metrics {
            self.ask_for_page(id, Verb::Depth, "depth");
            if self.node.is_some() {
                self.ask_for_page(id, Verb::Other, "place");
            }
        }
        self.later(SECONDS_TO_ANSWER, Timer::Page(id));
    }

    fn ask_for_page(&mut self, id: Id, verb: Verb, line: &str) {
        let Some(it) = self.pages.get_mut(id) else { return };
        it.answers.push((verb, None));
        let (whose, by, name, tag) =
            (Whose::Page(id, it.answers.len() - 1), By::Program, Name::NONE, Tag::NONE);
        if self.node.is_some() {
            return self.ask_node(whose, line);
        }
        let (arrivals, since) = (Arrivals::NONE, self.now);
        self.ask(Asked { whose, by, verb, name, tag, arrivals, since }, line.as_bytes());
    }

    pub fn page_answered(&mut self, id: Id, which: usize, answer: &[u8]) {
        let Some(it) = self.pages.get_mut(id).filter(|it| !it.is_answered()) else { return };
        it.answers[which].1 = Some(String::from_utf8_lossy(answer).into_owned());
        if it.answers.iter().any(|it| it.1.is_none()) {
            return;
        }
        // Which stages have any is known now: of each the oldest is asked for.
        let is_first = it.answers.iter().all(|it| it.0 != Verb::List);
        let depth = it.answers.iter().find(|it| it.0 == Verb::Depth).filter(|_| is_first);
        let depth = depth.and_then(|it| it.1.clone()).unwrap_or_default();
        let waiting: Vec<u16> = rows_of(&depth).iter().filter(|it| it.1[0] != "0").map(|it| it.0).collect();
        if waiting.is_empty() {
            return self.finish_page(id);
        }
        for stage in waiting {
            self.ask_for_page(id, Verb::List, &format!("list {stage}"));
        }
    }

    pub fn page_has_had_its_time(&mut self, id: Id) {
        let Some(it) = self.pages.get(id) else { return };
        let is_over = self.now.saturating_duration_since(it.since) >= Duration::from_secs_f64(SECONDS);
        if is_over {
            drop(self.pages.take(id));
        } else if !it.is_answered() {
            self.finish_page(id);
        }
    }

    /// Tells what is there of a page.
    fn finish_page(&mut self, id: Id) {
        let Some(it) = self.pages.get_mut(id) else { return };
        let (wanted, answers, mut page) =
            (it.wanted, std::mem::take(&mut it.answers), Page(std::mem::take(&mut it.page)));
        let told = |verb| answers.iter().find(|it| it.0 == verb).and_then(|it| it.1.as_deref());
        let count = told(Verb::Count).filter(|it| it.starts_with("waiting "));
        if wanted == Some(Wanted::Ready) {
            let said = count.map_or((UNAVAILABLE, "the session doesn't answer\n"), |_| (OK, "ok\n"));
            return self.tell_page(id, said.0, said.1);
        }
        // (where that takes too long, or can't be, the elements are left out)
        if let (Some(count), Some(depth)) = (count, told(Verb::Depth).filter(|it| it.starts_with("depth"))) {
            page.counted(count);
            page.depths(depth, &mut self.stages_seen);
            let lists = answers.iter().filter(|it| it.0 == Verb::List).filter_map(|it| it.1.as_deref());
            let firsts = lists.filter_map(first_of_list);
            let (ages, now) = (&mut self.ages, self.now);
            page.oldest(firsts.map(|(stage, element)| (stage, ages.of(element, now))));
        }
        if let Some(place) = told(Verb::Other).and_then(|it| it.strip_prefix("place ")) {
            page.one("place", Kind::Gauge, "How many records of the log the node has performed.", place);
        }
        self.tell_page(id, OK, &page.0);
    }

    fn health(&self) -> String {
        let leads = self.node.as_ref().map(|_| "this node leads".into());
        format!("{}\n", self.follows().or(leads).unwrap_or("ok".into()))
    }

    fn tell_page(&mut self, id: Id, status: &str, text: &str) {
        if let Some(it) = self.pages.get_mut(id) {
            it.answer(status, text);
            self.poll.change(it.fd(), it.events(), Source::Page(id).token());
        }
    }

    /// What the server itself knows.
    fn own_page(&self) -> String {
        let mut page = Page::default();
        let in_flight = self.routing.len() + self.lost.len();
        page.about("build_info", Kind::Gauge, "The version of the server.");
        page.value("build_info", &format!("{{version=\"{VERSION}\"}}"), 1);
        page.one("connections", Kind::Gauge, "Connections that are open.", self.clients.len());
        page.one("lines_in_flight", Kind::Gauge, "Lines that aren't answered.", in_flight);
        let lines = self.tally.all_answers() + self.tally.lost + in_flight as u64;
        page.one("lines_total", Kind::Counter, "Lines that were handed over.", lines);
        page.one("lines_waiting", Kind::Gauge, "Lines that wait for work or for a reply.", self.waits.len());
        page.one("window", Kind::Gauge, "Lines that the program may have at a time.", self.pace.window());
        self.page_of_node(&mut page);
        page.tally(&self.tally);
        let rights = self.rights.0.iter().flatten().zip(&self.tally.rights).enumerate();
        let rights = rights.map(|(at, (right, many))| (format!("{}\",right=\"{}", at + 1, right.who), many));
        page.many(
            "right_lines_total",
            Kind::Counter,
            "Lines, by the right that allows them.",
            "number",
            rights,
        );
        let units =
            self.units.iter().map(|(name, it)| (name, format!("{:.6}", (self.now - it.since).as_secs_f64())));
        page.many(
            "unit_open_seconds",
            Kind::Gauge,
            "For how long a worker has had its unit.",
            "worker",
            units,
        );
        page.0
    }

    /// One row for each client. It is a page of its own: there are as many rows as clients have come and
    /// gone.
    fn page_of_clients(&self) -> String {
        let mut page = Page::default();
        let label = |it: &crate::connection::Connection| format!("{}\",who=\"{}", it.number, it.who);
        let all = || self.clients.iter().map(|it| it.1);
        let name = "client_lines_total";
        page.many(
            name,
            Kind::Counter,
            "Lines of each client, empty ones too.",
            "client",
            all().map(|it| (label(it), it.lines)),
        );
        let name = "client_lines_in_flight";
        page.many(
            name,
            Kind::Gauge,
            "Lines that aren't answered.",
            "client",
            all().map(|it| (label(it), it.in_flight)),
        );
        let name = "client_unread_bytes";
        page.many(
            name,
            Kind::Gauge,
            "Bytes that it hasn't read.",
            "client",
            all().map(|it| (label(it), it.unread())),
        );
        let name = "client_connected_seconds";
        let since = all().map(|it| (label(it), format!("{:.3}", (self.now - it.since).as_secs_f64())));
        page.many(name, Kind::Gauge, "For how long it has been connected.", "client", since);
        page.0
    }
}

/// The stage and the first element of an answer to `list`.
fn first_of_list(answer: &str) -> Option<(u16, u64)> {
    let mut words = answer.strip_prefix("list ")?.split(' ');
    Some((words.next()?.parse().ok()?, words.next()?.parse().ok()?))
}
