//! What is asked of the system itself. Interrupts: the progress line goes, and no file is left half written. Whether standard output was
//! closed at the start. Limits of a process that answers for a page, and waiting for several things at once.
//!
//! All unsafe code of this program is here.

use libc::{c_int, SIGHUP, SIGINT, SIGTERM};
use std::io::{stderr, IsTerminal};
use std::mem::MaybeUninit;
use std::os::fd::{AsRawFd, BorrowedFd};
use std::ptr;
use std::sync::atomic::{AtomicBool, Ordering};
use std::time::Duration;

/// Moves to the front of the line and erases it.
const ERASE: &[u8] = b"\r\x1b[2K";

/// From now on an interrupt erases the progress line and then ends the program as it would have.
pub fn erase_on_interrupt() {
    if stderr().is_terminal() {
        // SAFETY: the handler makes calls that are allowed in one, and no others.
        unsafe { libc::signal(SIGINT, erase as extern "C" fn(c_int) as libc::sighandler_t) };
    }
}

extern "C" fn erase(signal: c_int) {
    // SAFETY: `write`, `signal` and `raise` may be called in a handler; the pointer is that of a constant.
    unsafe {
        libc::write(libc::STDERR_FILENO, ERASE.as_ptr().cast(), ERASE.len());
        libc::signal(signal, libc::SIG_DFL);
        libc::raise(signal);
    }
}

/// Does something that interrupts wait for.
pub fn uninterrupted<T>(work: impl FnOnce() -> T) -> T {
    let mut set = MaybeUninit::uninit();
    let mut before = MaybeUninit::uninit();
    // SAFETY: `sigemptyset` fills the set, and `pthread_sigmask` fills the mask that was there before.
    unsafe {
        libc::sigemptyset(set.as_mut_ptr());
        for signal in [SIGINT, SIGTERM, SIGHUP] {
            libc::sigaddset(set.as_mut_ptr(), signal);
        }
        libc::pthread_sigmask(libc::SIG_BLOCK, set.as_ptr(), before.as_mut_ptr());
    }
    let done = work();
    // SAFETY: the mask was filled above.
    unsafe { libc::pthread_sigmask(libc::SIG_SETMASK, before.as_ptr(), ptr::null_mut()) };
    done
}

/// What a process that answers for a page may take of memory, addresses that it does not touch included.
const MOST_MEMORY: u64 = 4 << 30;

/// From now on this process can open no file and no socket, and it ends where the process that has started it does.
pub fn open_no_files() {
    let limit = |most: u64| libc::rlimit { rlim_cur: most, rlim_max: most };
    let standard = u64::try_from(libc::STDERR_FILENO).unwrap_or(0) + 1;
    // SAFETY: the calls read the limits that are lent, and change nothing else in this program.
    unsafe {
        libc::setrlimit(libc::RLIMIT_NOFILE, &limit(standard));
        libc::setrlimit(libc::RLIMIT_AS, &limit(MOST_MEMORY));
        libc::setrlimit(libc::RLIMIT_CORE, &limit(0));
        libc::prctl(libc::PR_SET_PDEATHSIG, libc::SIGKILL);
    }
}

/// Waits until something can be read, or has ended, and says of each whether that is so; all are false where the time is over.
pub fn wait_for<const N: usize>(things: [BorrowedFd; N], limit: Duration) -> [bool; N] {
    let mut polled = things.map(|thing| libc::pollfd { fd: thing.as_raw_fd(), events: libc::POLLIN, revents: 0 });
    let milliseconds = c_int::try_from(limit.as_millis()).unwrap_or(c_int::MAX);
    // SAFETY: the array has as many entries as are said, of open files.
    let number = unsafe { libc::poll(polled.as_mut_ptr(), N as libc::nfds_t, milliseconds) };
    polled.map(|thing| number > 0 && thing.revents != 0)
}

/// Whether the program was started with standard output closed. The standard library opens a device in its place before `main`.
pub fn is_output_closed() -> bool {
    OUTPUT_CLOSED.load(Ordering::Relaxed)
}

static OUTPUT_CLOSED: AtomicBool = AtomicBool::new(false);

// SAFETY: the linker puts pointers to functions without arguments in this section, and they are called before `main`.
#[used]
#[unsafe(link_section = ".init_array")]
static AT_START: extern "C" fn() = note_closed_output;

extern "C" fn note_closed_output() {
    // SAFETY: the call looks at a number and changes nothing.
    let flags = unsafe { libc::fcntl(libc::STDOUT_FILENO, libc::F_GETFD) };
    OUTPUT_CLOSED.store(flags == -1, Ordering::Relaxed);
}
