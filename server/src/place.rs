//! The place of a socket in the file system, which one server has at a time.
use crate::fault::{Fault, Status};
use crate::sys;
use std::fs::{File, Metadata};
use std::io::{self, ErrorKind};
use std::os::fd::AsRawFd;
use std::os::linux::net::SocketAddrExt;
use std::os::unix::fs::{FileTypeExt, MetadataExt, OpenOptionsExt};
use std::os::unix::net::{SocketAddr, UnixListener, UnixStream};

const MODE_OF_LOCK: u32 = 0o600;

/// A path that is this process's. `PATH.lock` is locked as long as it is, and so is its name where files that
/// are deleted don't matter.
pub struct Place {
    path: String,
    mode: u32,
    is_bound: bool,
    _lock: File,
    _name: Option<UnixListener>,
}

fn taken(why: String) -> Fault {
    Fault(Status::NoPlace, why)
}

impl Place {
    /// Takes the path. A socket that was left there is taken away where nobody listens on it.
    pub fn take(path: &str, mode: u32) -> Result<Place, Fault> {
        let lock = lock_of(path)?;
        let there = std::fs::symlink_metadata(path);
        if let Ok(it) = &there {
            refuse_others(path, it)?;
        }
        let name = name_of(path)?;
        if there.is_ok() {
            match UnixStream::connect(path) {
                Err(it) if it.kind() == ErrorKind::ConnectionRefused => drop(std::fs::remove_file(path)),
                Err(it) => return Err(taken(format!("{path} is there: {it}"))),
                Ok(_) => return Err(taken(format!("somebody listens on {path}"))),
            }
        }
        Ok(Place { path: path.into(), mode, is_bound: false, _lock: lock, _name: name })
    }

    /// Returns the socket, which has its permissions from the beginning.
    pub fn bind(&mut self) -> Result<UnixListener, Fault> {
        let it = sys::with_mode(self.mode, || UnixListener::bind(&self.path));
        let it = it.map_err(|it| taken(format!("{} can't be made: {it}", self.path)))?;
        self.is_bound = true;
        Ok(it)
    }
}

impl Drop for Place {
    fn drop(&mut self) {
        if self.is_bound {
            let _ = std::fs::remove_file(&self.path);
        }
    }
}

/// Locks `PATH.lock`, and makes it where it isn't there. A symbolic link is refused: who may write into the
/// folder could have another file made, or locked.
fn lock_of(path: &str) -> Result<File, Fault> {
    let mut options = File::options();
    options
        .read(true)
        .write(true)
        .create(true)
        .truncate(false)
        .mode(MODE_OF_LOCK)
        .custom_flags(sys::NO_FOLLOW);
    let lock = format!("{path}.lock");
    let file = options.open(&lock).map_err(|it| match std::fs::symlink_metadata(&lock) {
        Ok(that) if that.is_symlink() => taken(format!("{lock} is a symbolic link")),
        _ => taken(format!("{lock} can't be made: {it}")),
    })?;
    if sys::lock(&file) {
        Ok(file)
    } else {
        Err(taken(format!("another server has {path}")))
    }
}

fn refuse_others(path: &str, it: &Metadata) -> Result<(), Fault> {
    if it.is_symlink() {
        return Err(taken(format!("{path} is a symbolic link")));
    }
    if it.file_type().is_socket() {
        Ok(())
    } else {
        Err(taken(format!("{path} is there, and is no socket")))
    }
}

/// Takes the name of the place, which no file keeps: a second server whose path is the same is told so though
/// somebody has deleted the lock and the socket. A stranger who took the name doesn't keep a server from
/// beginning.
fn name_of(path: &str) -> Result<Option<UnixListener>, Fault> {
    let folder = std::path::Path::new(path).parent().filter(|it| !it.as_os_str().is_empty());
    let folder = std::fs::canonicalize(folder.unwrap_or(".".as_ref()));
    let file = std::path::Path::new(path).file_name();
    let (Ok(folder), Some(file)) = (folder, file) else { return Ok(None) };
    let name = format!("covetrivet:{}", folder.join(file).display());
    let Ok(address) = SocketAddr::from_abstract_name(name) else { return Ok(None) };
    match UnixListener::bind_addr(&address) {
        Ok(it) => Ok(Some(it)),
        Err(_) if is_ours(&address).unwrap_or(false) => {
            Err(taken(format!("another server has {path}, whose files were deleted meanwhile")))
        }
        Err(_) => Ok(None),
    }
}

/// Whether who listens there is this user, or root.
fn is_ours(address: &SocketAddr) -> io::Result<bool> {
    let it = UnixStream::connect_addr(address)?;
    let ours = std::fs::metadata("/proc/self")?.uid();
    Ok(sys::peer(it.as_raw_fd()).is_some_and(|it| it.user == ours || it.user == 0))
}
