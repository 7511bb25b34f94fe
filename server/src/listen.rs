//! Where clients and requests come in.
use crate::fault::{Fault, Status};
use crate::notify::HandedOver;
use crate::options::Options;
use crate::place::Place;
use crate::sys;
use std::net::TcpListener;
use std::os::fd::{AsRawFd, OwnedFd};

/// The places of sockets, before anything listens there.
pub struct Places {
    clients: Socket,
    tcp: Option<OwnedFd>,
    pages: Option<Socket>,
}

enum Socket {
    /// systemd's, who keeps its place too.
    HandedOver(OwnedFd),
    Own(Place),
    Tcp(OwnedFd),
}

/// What listens.
pub struct Listeners {
    pub clients: OwnedFd,
    pub tcp: Option<OwnedFd>,
    pub pages: Option<OwnedFd>,
}

impl Places {
    pub fn take(options: &Options, mut handed: HandedOver) -> Result<Places, Fault> {
        let unix = |path: &str, handed: &mut HandedOver| match handed.at(path) {
            Some(it) => Ok(Socket::HandedOver(it)),
            None => Place::take(path, options.mode).map(Socket::Own),
        };
        let clients = unix(&options.socket, &mut handed)?;
        let tcp = options.tcp.as_deref().map(|it| over_tcp(it, &mut handed)).transpose()?;
        let pages = match options.metrics.as_deref() {
            Some(it) if is_address(it) => Some(Socket::Tcp(over_tcp(it, &mut handed)?)),
            Some(it) => Some(unix(it, &mut handed)?),
            None => None,
        };
        Ok(Places { clients, tcp, pages })
    }

    /// Listens. The places are this process's until they are dropped.
    pub fn bind(self) -> Result<(Listeners, Vec<Place>), Fault> {
        let mut places = Vec::new();
        let pages = self.pages.map(|it| it.bind(&mut places)).transpose()?;
        let clients = self.clients.bind(&mut places)?;
        for it in [Some(&clients), self.tcp.as_ref(), pages.as_ref()].into_iter().flatten() {
            sys::unblock(it.as_raw_fd());
        }
        Ok((Listeners { clients, tcp: self.tcp, pages }, places))
    }
}

impl Socket {
    fn bind(self, places: &mut Vec<Place>) -> Result<OwnedFd, Fault> {
        match self {
            Socket::HandedOver(it) | Socket::Tcp(it) => Ok(it),
            Socket::Own(mut place) => {
                let it = place.bind()?;
                places.push(place);
                Ok(it.into())
            }
        }
    }
}

/// Whether this is HOST:PORT, and no path.
fn is_address(word: &str) -> bool {
    !word.contains('/') && word.rsplit_once(':').is_some_and(|it| it.1.parse::<u16>().is_ok())
}

fn over_tcp(address: &str, handed: &mut HandedOver) -> Result<OwnedFd, Fault> {
    if let Some(it) = handed.over_tcp(address) {
        return Ok(it);
    }
    let it = TcpListener::bind(address)
        .map_err(|it| Fault(Status::NoPlace, format!("{address} can't be had: {it}")))?;
    Ok(it.into())
}
