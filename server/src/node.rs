//! A program that is a node of a cluster: only while it leads are there clients, and lines for it.
use crate::fault::Fault;
use crate::head::{note_name, Names};
use crate::life::Going;
use crate::page::{Kind, Page};
use crate::routing::Whose;
use crate::said::{said_in, Said};
use crate::server::Server;
use crate::session::in_hand;
use crate::slab::Id;
use std::collections::VecDeque;

const LEADS_NO_MORE: &str = "this node leads no more; what wasn't answered may have been done";

pub struct Node {
    /// Why it follows, as clients are told; None while it leads.
    follows: Option<String>,
    term: u64,
    /// Of the session that it comes to lead.
    names: Names,
    /// Which answers of pages it is asked for.
    pages: VecDeque<(Id, usize)>,
}

impl Node {
    pub fn new() -> Node {
        let follows = Some("it isn't known who leads".into());
        Node { follows, term: 0, names: Names::new(), pages: VecDeque::new() }
    }
}

impl Server {
    /// What clients are told where this is a node that follows.
    pub fn follows(&self) -> Option<String> {
        let why = self.node.as_ref()?.follows.as_ref()?;
        Some(format!("this node follows: {why}"))
    }

    /// A line of a node's that is no answer. False where it is none at all.
    pub fn node_says(&mut self, line: &[u8]) -> bool {
        let (Some(node), Some(said)) = (&mut self.node, said_in(line)) else { return false };
        match said {
            Said::Name(line) => note_name(&mut node.names, line),
            Said::Leads(term, holds) => return self.begins_to_lead(term, holds),
            Said::Follows(why) => self.begins_to_follow(why),
            Said::Told(answer) => match node.pages.pop_front() {
                Some((page, which)) => self.page_answered(page, which, answer),
                None => return false,
            },
            Said::Ends(status, why) => {
                self.forget_program();
                self.lose(Fault(status, format!("this node ends: {why}")));
            }
        }
        true
    }

    fn begins_to_lead(&mut self, term: u64, holds: &str) -> bool {
        let (Some(node), Some(busy)) = (&mut self.node, in_hand(holds)) else { return false };
        (node.follows, node.term) = (None, term);
        self.names = std::mem::take(&mut node.names);
        self.going = Going::Runs;
        // (the node leaves out what was sent before this: it was for another term)
        self.input.extend_from_slice(format!("# leads {term}\n").as_bytes());
        for name in busy {
            let serial = self.units.begin(name, None, self.now, true);
            self.orphaned(name, serial);
        }
        true
    }

    /// What wasn't answered is nobody's, and all clients are let go.
    fn begins_to_follow(&mut self, why: &str) {
        let Some(node) = &mut self.node else { return };
        let has_led = node.follows.replace(why.into()).is_none();
        node.names.clear();
        self.going = Going::Follows;
        if !has_led {
            return;
        }
        let (_, lost) = self.routing.lose();
        self.tally.lost += lost.len() as u64;
        self.units = Default::default();
        self.forget_all_waits();
        for id in self.clients.ids() {
            self.dismiss(id, Some(LEADS_NO_MORE));
        }
    }

    /// Has a line of a page answered by the node's own session, also where it follows: there is no record of it.
    pub fn ask_node(&mut self, whose: Whose, line: &str) {
        if let (Some(node), Whose::Page(page, which)) = (&mut self.node, whose) {
            node.pages.push_back((page, which));
            // (a comment: no client's is handed on)
            self.input.extend_from_slice(format!("# {line}\n").as_bytes());
        }
    }

    pub fn page_of_node(&self, page: &mut Page) {
        let Some(node) = &self.node else { return };
        let leads = node.follows.is_none();
        page.one("leads", Kind::Gauge, "Whether this node leads.", u8::from(leads));
        page.one("term", Kind::Gauge, "The term in which it leads, or 0.", if leads { node.term } else { 0 });
    }
}
