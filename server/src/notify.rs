//! What systemd is told, and which sockets it hands over.
use crate::sys;
use std::net::TcpListener;
use std::os::fd::OwnedFd;
use std::os::linux::net::SocketAddrExt;
use std::os::unix::net::{SocketAddr, UnixDatagram, UnixListener};

const FIRST_HANDED_OVER: i32 = 3;
const MOST_HANDED_OVER: i32 = 16;

/// Tells systemd, where it has started this process and wants to know.
pub fn tell(what: &str) {
    let Some(path) = std::env::var_os("NOTIFY_SOCKET").and_then(|it| it.into_string().ok()) else { return };
    let address = match path.strip_prefix('@') {
        Some(name) => SocketAddr::from_abstract_name(name),
        None => SocketAddr::from_pathname(&path),
    };
    if let (Ok(it), Ok(address)) = (UnixDatagram::unbound(), address) {
        let _ = it.send_to_addr(what.as_bytes(), &address);
    }
}

/// Sockets that this process was started with, which listen already: who connects while the server begins
/// again waits, and isn't refused.
#[derive(Default)]
pub struct HandedOver {
    unix: Vec<UnixListener>,
    tcp: Vec<TcpListener>,
}

impl HandedOver {
    /// Takes them. To be called once, before anything is opened.
    pub fn take() -> HandedOver {
        let mut them = HandedOver::default();
        let number = |name| std::env::var(name).ok().and_then(|it| it.parse::<i32>().ok());
        let is_ours = number("LISTEN_PID") == i32::try_from(std::process::id()).ok();
        let many = number("LISTEN_FDS").filter(|_| is_ours).unwrap_or(0).clamp(0, MOST_HANDED_OVER);
        for fd in (FIRST_HANDED_OVER..FIRST_HANDED_OVER + many).filter_map(sys::inherited) {
            let it = UnixListener::from(fd);
            match it.local_addr() {
                Ok(_) => them.unix.push(it),
                Err(_) => them.tcp.push(TcpListener::from(OwnedFd::from(it))),
            }
        }
        them
    }

    /// The one that listens at this path.
    pub fn at(&mut self, path: &str) -> Option<OwnedFd> {
        let is_it =
            |it: &UnixListener| it.local_addr().is_ok_and(|it| it.as_pathname() == Some(path.as_ref()));
        let at = self.unix.iter().position(is_it)?;
        Some(self.unix.swap_remove(at).into())
    }

    /// The one that listens at this address of TCP.
    pub fn over_tcp(&mut self, address: &str) -> Option<OwnedFd> {
        let is_it = |it: &TcpListener| it.local_addr().is_ok_and(|it| it.to_string() == address);
        let at = self.tcp.iter().position(is_it)?;
        Some(self.tcp.swap_remove(at).into())
    }
}
