//! The calls of the system that the standard library has not. It links the C library, so no crate is needed
//! for them. This is the only file with `unsafe`; the numbers are those of Linux on x86-64 and arm64.
#![allow(unsafe_code)]
use std::fs::File;
use std::io;
use std::os::fd::{AsRawFd, FromRawFd, OwnedFd, RawFd};

#[cfg(not(all(target_os = "linux", any(target_arch = "x86_64", target_arch = "aarch64"))))]
compile_error!("covetrivetd knows the numbers of Linux on x86-64 and arm64 alone");

const CLOSE_ON_EXEC: i32 = 0o2_000_000;
const NON_BLOCKING: i32 = 0o4_000;
#[cfg(target_arch = "x86_64")]
pub const NO_FOLLOW: i32 = 0o400_000;
#[cfg(target_arch = "aarch64")]
pub const NO_FOLLOW: i32 = 0o100_000;

/// What a descriptor may be watched for, and what is told of it.
pub const READABLE: u32 = 1;
pub const WRITABLE: u32 = 4;
pub const FAILED: u32 = 8;
pub const HUNG_UP: u32 = 16;

const EPOLL_ADD: i32 = 1;
const EPOLL_REMOVE: i32 = 2;
const EPOLL_CHANGE: i32 = 3;
const SET_OF_FD: i32 = 2;
const CLOSE_AT_EXEC: i32 = 1;
const GET_FLAGS: i32 = 3;
const SET_FLAGS: i32 = 4;
const SET_PIPE_SIZE: i32 = 1031;
const FILES: i32 = 7;
const LOCK_ALONE_AT_ONCE: i32 = 2 | 4;
const BLOCK_SIGNALS: i32 = 0;
const SIGNAL_INTERRUPT: u32 = 2;
const SIGNAL_TERMINATE: u32 = 15;
const LEVEL_SOCKET: i32 = 1;
const LEVEL_TCP: i32 = 6;
const SOCKET_KEEPALIVE: i32 = 9;
const SOCKET_PEER: i32 = 17;
const SOCKET_PEER_GROUPS: i32 = 59;
const TCP_IDLE: i32 = 4;
const TCP_BETWEEN: i32 = 5;
const TCP_TRIES: i32 = 6;
/// A connection over TCP is gone that answers nothing for so many seconds, and three times as many behind
/// them.
const SECONDS_OF_SILENCE: i32 = 30;
/// How many bytes of lines and of answers a pipe holds, where the system allows that.
const PIPE_BYTES: i32 = 1 << 20;
const MOST_GROUPS: usize = 256;
/// A set of signals has 1,024 bits.
type Signals = [u64; 16];

/// An event of a descriptor.
#[repr(C)]
#[cfg_attr(target_arch = "x86_64", repr(packed))]
#[derive(Clone, Copy, Default)]
pub struct Event {
    pub events: u32,
    pub token: u64,
}

#[repr(C)]
struct Limit {
    soft: u64,
    hard: u64,
}

/// Who is at the other end of a Unix socket.
#[repr(C)]
#[derive(Clone, Copy)]
pub struct Peer {
    pub process: i32,
    pub user: u32,
    pub group: u32,
}

extern "C" {
    fn epoll_create1(flags: i32) -> i32;
    fn epoll_ctl(poll: i32, act: i32, fd: i32, event: *mut Event) -> i32;
    fn epoll_wait(poll: i32, events: *mut Event, most: i32, milliseconds: i32) -> i32;
    fn accept4(fd: i32, address: *mut u8, length: *mut u32, flags: i32) -> i32;
    fn getsockopt(fd: i32, level: i32, name: i32, value: *mut u8, length: *mut u32) -> i32;
    fn setsockopt(fd: i32, level: i32, name: i32, value: *const i32, length: u32) -> i32;
    fn signalfd(fd: i32, set: *const Signals, flags: i32) -> i32;
    fn sigprocmask(how: i32, set: *const Signals, before: *mut Signals) -> i32;
    fn fcntl(fd: i32, command: i32, ...) -> i32;
    fn flock(fd: i32, how: i32) -> i32;
    fn umask(mode: u32) -> u32;
    fn getrlimit(which: i32, limit: *mut Limit) -> i32;
    fn setrlimit(which: i32, limit: *const Limit) -> i32;
    fn read(fd: i32, bytes: *mut u8, many: usize) -> isize;
    fn write(fd: i32, bytes: *const u8, many: usize) -> isize;
    fn memchr(bytes: *const u8, byte: i32, many: usize) -> *const u8;
    fn clock_gettime(clock: i32, time: *mut [i64; 2]) -> i32;
}

fn made(value: i32) -> io::Result<i32> {
    if value < 0 {
        Err(io::Error::last_os_error())
    } else {
        Ok(value)
    }
}

fn counted(value: isize) -> io::Result<usize> {
    usize::try_from(value).map_err(|_| io::Error::last_os_error())
}

/// Where this byte stands first.
pub fn find(bytes: &[u8], byte: u8) -> Option<usize> {
    // SAFETY: memchr reads the slice alone, and returns a place in it, or null.
    let at = unsafe { memchr(bytes.as_ptr(), i32::from(byte), bytes.len()) };
    (!at.is_null()).then(|| at as usize - bytes.as_ptr() as usize)
}

pub fn read_some(fd: RawFd, bytes: &mut [u8]) -> io::Result<usize> {
    // SAFETY: at most so many bytes are written as the slice has.
    counted(unsafe { read(fd, bytes.as_mut_ptr(), bytes.len()) })
}

pub fn write_some(fd: RawFd, bytes: &[u8]) -> io::Result<usize> {
    // SAFETY: at most so many bytes are read as the slice has.
    counted(unsafe { write(fd, bytes.as_ptr(), bytes.len()) })
}

/// Descriptors that are watched.
pub struct Poll(OwnedFd);

impl Poll {
    pub fn new() -> io::Result<Poll> {
        // SAFETY: the descriptor is new, and nobody else's.
        Ok(Poll(unsafe { OwnedFd::from_raw_fd(made(epoll_create1(CLOSE_ON_EXEC))?) }))
    }

    pub fn add(&self, fd: RawFd, events: u32, token: u64) -> io::Result<()> {
        self.control(EPOLL_ADD, fd, events, token)
    }

    /// Watches a descriptor for other events. Failing and hanging up are told in any case.
    pub fn change(&self, fd: RawFd, events: u32, token: u64) {
        let _ = self.control(EPOLL_CHANGE, fd, events, token);
    }

    pub fn remove(&self, fd: RawFd) {
        let _ = self.control(EPOLL_REMOVE, fd, 0, 0);
    }

    fn control(&self, act: i32, fd: RawFd, events: u32, token: u64) -> io::Result<()> {
        let mut event = Event { events, token };
        // SAFETY: the event is read in the call, and not kept.
        made(unsafe { epoll_ctl(self.0.as_raw_fd(), act, fd, &mut event) }).map(|_| ())
    }

    /// Returns how many events there are; none where a signal came, or at the end of the time. -1 is for
    /// ever.
    pub fn wait(&self, events: &mut [Event], milliseconds: i32) -> usize {
        let most = i32::try_from(events.len()).unwrap_or(i32::MAX);
        // SAFETY: at most so many events are written as the slice has.
        let many = unsafe { epoll_wait(self.0.as_raw_fd(), events.as_mut_ptr(), most, milliseconds) };
        usize::try_from(many).unwrap_or(0)
    }
}

/// Takes a connection, which doesn't block.
pub fn accept(fd: RawFd) -> io::Result<OwnedFd> {
    let (address, length) = (std::ptr::null_mut(), std::ptr::null_mut());
    // SAFETY: no address is asked for; the descriptor is new, and nobody else's.
    Ok(unsafe { OwnedFd::from_raw_fd(made(accept4(fd, address, length, CLOSE_ON_EXEC | NON_BLOCKING))?) })
}

/// Takes over a descriptor that this process was started with. Its own children don't get it.
pub fn inherited(fd: RawFd) -> Option<OwnedFd> {
    // SAFETY: F_SETFD of any number is harmless. Each number is taken once, by the start, before any is
    // opened.
    unsafe { (fcntl(fd, SET_OF_FD, CLOSE_AT_EXEC) >= 0).then(|| OwnedFd::from_raw_fd(fd)) }
}

pub fn peer(fd: RawFd) -> Option<Peer> {
    let (mut it, mut length) =
        (Peer { process: 0, user: u32::MAX, group: u32::MAX }, size_of::<Peer>() as u32);
    // SAFETY: the length is that of the value, which is three numbers of any bits.
    let told = unsafe { getsockopt(fd, LEVEL_SOCKET, SOCKET_PEER, (&raw mut it).cast(), &mut length) };
    (told == 0).then_some(it)
}

/// The other groups of who is at the other end of a Unix socket.
pub fn groups_of_peer(fd: RawFd) -> Vec<u32> {
    let mut them = vec![0u32; MOST_GROUPS];
    let mut length = (them.len() * size_of::<u32>()) as u32;
    // SAFETY: the length is that of the vector, whose numbers may have any bits.
    let told =
        unsafe { getsockopt(fd, LEVEL_SOCKET, SOCKET_PEER_GROUPS, them.as_mut_ptr().cast(), &mut length) };
    them.truncate(if told == 0 { length as usize / size_of::<u32>() } else { 0 });
    // (it is kept as long as the connection)
    them.shrink_to_fit();
    them
}

/// Has the system find out that the other machine is gone, also where nothing is written to it.
pub fn keep_alive(fd: RawFd) {
    let options = [
        (LEVEL_SOCKET, SOCKET_KEEPALIVE, 1),
        (LEVEL_TCP, TCP_IDLE, SECONDS_OF_SILENCE),
        (LEVEL_TCP, TCP_BETWEEN, SECONDS_OF_SILENCE),
        (LEVEL_TCP, TCP_TRIES, 3),
    ];
    for (level, name, value) in options {
        // SAFETY: the value is a number of four bytes, as the length says.
        unsafe { setsockopt(fd, level, name, &value, size_of::<i32>() as u32) };
    }
}

/// SIGTERM and SIGINT are told by this descriptor from now on.
pub fn signals() -> io::Result<OwnedFd> {
    let mut set: Signals = [0; 16];
    set[0] = 1 << (SIGNAL_TERMINATE - 1) | 1 << (SIGNAL_INTERRUPT - 1);
    // SAFETY: the set has as many bits as the C library's; the descriptor is new, and nobody else's.
    unsafe {
        made(sigprocmask(BLOCK_SIGNALS, &set, std::ptr::null_mut()))?;
        Ok(OwnedFd::from_raw_fd(made(signalfd(-1, &set, CLOSE_ON_EXEC | NON_BLOCKING))?))
    }
}

/// How many seconds of a processor another process has had.
pub fn processor_of(process: u32) -> Option<f64> {
    // (the clock of a process, as clock_getcpuclockid makes its number)
    let clock = !(process as i32) << 3 | 2;
    let mut it = [0i64; 2];
    // SAFETY: a time is two numbers.
    made(unsafe { clock_gettime(clock, &mut it) }).ok().map(|_| it[0] as f64 + it[1] as f64 * 1e-9)
}

pub fn unblock(fd: RawFd) {
    // SAFETY: these commands take and return numbers alone.
    unsafe { fcntl(fd, SET_FLAGS, fcntl(fd, GET_FLAGS) | NON_BLOCKING) };
}

pub fn widen_pipe(fd: RawFd) {
    // SAFETY: as above.
    unsafe { fcntl(fd, SET_PIPE_SIZE, PIPE_BYTES) };
}

/// Whether the file is locked for this process alone now.
pub fn lock(file: &File) -> bool {
    // SAFETY: flock takes numbers alone.
    unsafe { flock(file.as_raw_fd(), LOCK_ALONE_AT_ONCE) == 0 }
}

/// Does this while new files have these permissions. (No other thread makes any.)
pub fn with_mode<T>(mode: u32, act: impl FnOnce() -> T) -> T {
    // SAFETY: umask takes and returns a number.
    let before = unsafe { umask(0o777 & !mode) };
    let value = act();
    // SAFETY: as above.
    unsafe { umask(before) };
    value
}

/// Has the system let this process have so many files. An Err says how many it may have.
pub fn allow_files(many: u64) -> Result<(), u64> {
    let mut it = Limit { soft: 0, hard: 0 };
    // SAFETY: a limit is two numbers.
    unsafe { getrlimit(FILES, &mut it) };
    let hard = it.hard;
    // SAFETY: as above.
    if it.soft >= many || hard >= many && unsafe { setrlimit(FILES, &Limit { soft: many, hard }) } == 0 {
        return Ok(());
    }
    Err(hard)
}
