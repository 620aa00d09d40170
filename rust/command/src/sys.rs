//! What the standard library has no word for: standard streams that are closed, signals, and printing that a signal cannot cut.
//!
//! A signal ends the program as it always does, so never with status 0. Before that the handler takes the part of a file away that
//! `-o` was about to rename, ends the programs that were started, and, where a file was due on standard output and has no byte yet, writes
//! `failed` there: with nothing there it would be an empty file, which is a draft.

use std::ffi::{CString, c_char, c_int, c_uint, c_ulong, c_void};
use std::fs::{File, Metadata};
use std::io::{self, IsTerminal};
use std::mem::ManuallyDrop;
use std::os::fd::{FromRawFd, IntoRawFd};
use std::os::unix::ffi::OsStrExt;
use std::path::Path;
use std::ptr;
use std::sync::atomic::{AtomicBool, AtomicI32, AtomicPtr, Ordering::SeqCst};

#[repr(C)]
struct Poll {
    fd: c_int,
    events: i16,
    found: i16,
}

/// The C library's set of signals: 1,024 bits.
#[repr(C)]
#[derive(Clone, Copy)]
struct Signals([c_ulong; 16]);

/// The kernel's answer about a file: of its 256 bytes, what is asked for here.
#[repr(C)]
#[derive(Default)]
struct Statx {
    before: [u32; 2],
    attributes: u64,
    between: [u64; 5],
    /// Those of the attributes that the file system knows.
    known: u64,
    behind: [u64; 24],
}

unsafe extern "C" {
    fn fcntl(fd: c_int, command: c_int, ...) -> c_int;
    fn signal(number: c_int, action: usize) -> usize;
    fn raise(number: c_int) -> c_int;
    fn kill(process: c_int, number: c_int) -> c_int;
    fn write(fd: c_int, bytes: *const c_void, length: usize) -> isize;
    fn close(fd: c_int) -> c_int;
    fn unlink(path: *const c_char) -> c_int;
    fn poll(polls: *mut Poll, count: c_ulong, wait: c_int) -> c_int;
    fn ppoll(polls: *mut Poll, count: c_ulong, wait: *const c_void, mask: *const Signals) -> c_int;
    fn sigfillset(set: *mut Signals) -> c_int;
    fn pthread_sigmask(how: c_int, set: *const Signals, old: *mut Signals) -> c_int;
    fn statx(
        folder: c_int,
        path: *const c_char,
        flags: c_int,
        mask: c_uint,
        found: *mut Statx,
    ) -> c_int;
}

const F_GETFD: c_int = 1;
const POLLOUT: i16 = 4;
const AT_FDCWD: c_int = -100;
const STATX_ATTR_MOUNT_ROOT: u64 = 0x2000;
const SIG_SETMASK: c_int = 2;
const DEFAULT: usize = 0;
const IGNORE: usize = 1;
const SIGKILL: c_int = 9;
const SIGPIPE: c_int = 13;
const SIGXFSZ: c_int = 25;
/// Those that cannot be caught (KILL, STOP), or end nothing by themselves (CHLD, CONT, TSTP, TTIN, TTOU, URG, WINCH), and the two that the C library
/// keeps for itself.
const LEFT_ALONE: [c_int; 11] = [SIGKILL, 19, 17, 18, 20, 21, 22, 23, 28, 32, 33];
const LAST_SIGNAL: c_int = 64;

const OUTPUT: c_int = 1;
/// A pipe that can be written to takes so many bytes at once.
const PIPE_BYTES: usize = 4096;

/// A file is due on standard output, and has no byte yet.
static FILE_DUE: AtomicBool = AtomicBool::new(false);
/// The name of the file that is not whole yet.
static PART: AtomicPtr<c_char> = AtomicPtr::new(ptr::null_mut());
/// The group of the programs that were started and run still; 0 where there is none.
static GROUP: AtomicI32 = AtomicI32::new(NO_GROUP);
const NO_GROUP: i32 = 0;

/// Which of the standard streams were closed.
#[derive(Clone, Copy, Debug)]
pub struct Streams {
    /// Standard input.
    pub no_input: bool,
    /// Standard output.
    pub no_output: bool,
}

/// Before all else: whether a file may be due on standard output, so far as the first words say. Where a stream is closed its number is taken, so
/// that no file that is opened later gets it.
pub fn begin(file_may_be_due: bool) -> Streams {
    let closed = [0, 1, 2].map(|fd| {
        // SAFETY: only a number goes in.
        let closed = unsafe { fcntl(fd, F_GETFD) } < 0;
        if closed && let Ok(nothing) = File::open("/dev/null") {
            let _ = nothing.into_raw_fd(); // the lowest number that is free: this one
        }
        closed
    });
    FILE_DUE.store(
        file_may_be_due && !closed[1] && !io::stdout().is_terminal(),
        SeqCst,
    );
    for number in (1..=LAST_SIGNAL).filter(|number| !LEFT_ALONE.contains(number)) {
        handle(number);
    }
    Streams {
        no_input: closed[0],
        no_output: closed[1],
    }
}

fn handle(number: c_int) {
    let action = match number {
        SIGPIPE | SIGXFSZ => IGNORE, // a write that fails is an error then
        _ => ended as *const () as usize,
    };
    // SAFETY: `ended` calls nothing that a handler may not call.
    unsafe {
        if signal(number, action) == IGNORE {
            signal(number, IGNORE); // as nohup has it
        }
    }
}

/// The handler of every signal that ends a program.
extern "C" fn ended(number: c_int) {
    // SAFETY: unlink, kill, poll, write, signal and raise may be called here; the path stays where it is until the program ends.
    unsafe {
        let part = PART.load(SeqCst);
        if !part.is_null() {
            unlink(part);
        }
        let group = GROUP.load(SeqCst);
        if group != NO_GROUP {
            kill(-group, SIGKILL);
        }
        if FILE_DUE.swap(false, SeqCst) {
            let mut output = Poll {
                fd: OUTPUT,
                events: POLLOUT,
                found: 0,
            };
            // A pipe that is full is not empty.
            if poll(&mut output, 1, 0) == 1 {
                write(OUTPUT, c"failed\n".as_ptr().cast(), 7);
            }
        }
        signal(number, DEFAULT);
        raise(number); // once this handler is left
    }
}

/// Signals wait as long as this is there.
pub struct Held(Signals);

impl Held {
    /// From here on.
    pub fn new() -> Held {
        let mut all = Signals([0; 16]);
        let mut before = all;
        // SAFETY: both sets have the C library's size.
        unsafe {
            sigfillset(&mut all);
            pthread_sigmask(SIG_SETMASK, &all, &mut before);
        }
        Held(before)
    }

    /// Waits until standard output takes bytes; a signal ends the program here.
    fn wait_for_output(&self) {
        let mut output = Poll {
            fd: OUTPUT,
            events: POLLOUT,
            found: 0,
        };
        // SAFETY: one element, and a set of the C library's size. Whatever comes back, the write that follows says what is wrong.
        unsafe { ppoll(&mut output, 1, ptr::null(), &self.0) };
    }
}

impl Default for Held {
    fn default() -> Held {
        Held::new()
    }
}

impl Drop for Held {
    fn drop(&mut self) {
        // SAFETY: as in `new`.
        unsafe { pthread_sigmask(SIG_SETMASK, &self.0, ptr::null_mut()) };
    }
}

/// Prints all bytes on standard output. A signal comes between two writes, when it is known whether there is a byte.
pub fn print(bytes: &[u8]) -> io::Result<()> {
    let most = match is_regular_output() {
        true => bytes.len(),
        false => PIPE_BYTES,
    };
    let held = Held::new();
    let mut rest = bytes;
    while !rest.is_empty() {
        held.wait_for_output();
        // SAFETY: pointer and length are those of a slice.
        let wrote = unsafe { write(OUTPUT, rest.as_ptr().cast(), rest.len().min(most)) };
        match usize::try_from(wrote) {
            Ok(0) => return Err(io::ErrorKind::WriteZero.into()),
            Ok(count) => {
                no_file_due();
                rest = &rest[count..];
            }
            Err(_) => {
                let error = io::Error::last_os_error();
                if !matches!(
                    error.kind(),
                    io::ErrorKind::Interrupted | io::ErrorKind::WouldBlock
                ) {
                    return Err(error);
                }
            }
        }
    }
    no_file_due(); // also where the file has no bytes
    Ok(())
}

fn is_regular_output() -> bool {
    output().is_ok_and(|data| data.is_file())
}

/// What standard output is. It is asked by its own number: a second one may not be had, where few files may
/// be open.
pub fn output() -> io::Result<Metadata> {
    // SAFETY: it is only looked at, and not closed.
    let output = ManuallyDrop::new(unsafe { File::from_raw_fd(OUTPUT) });
    output.metadata()
}

/// Whether a file system is mounted on a file, as far as the kernel says so (from Linux 5.8 on). No other
/// file can be put in its place then.
pub fn is_mounted_on(path: &Path) -> io::Result<bool> {
    let path = CString::new(path.as_os_str().as_bytes())?;
    let mut found = Statx::default();
    // SAFETY: a text that ends with a zero, and room for the whole answer.
    match unsafe { statx(AT_FDCWD, path.as_ptr(), 0, 0, &mut found) } {
        0 => Ok(found.attributes & found.known & STATX_ATTR_MOUNT_ROOT != 0),
        _ => Err(io::Error::last_os_error()),
    }
}

/// Closes standard output, which may be when a disk says that it is full.
pub fn close_output() -> io::Result<()> {
    // SAFETY: nothing is printed after this.
    match unsafe { close(OUTPUT) } {
        0 => Ok(()),
        _ => Err(io::Error::last_os_error()),
    }
}

/// No file is due on standard output, or none any more.
pub fn no_file_due() {
    FILE_DUE.store(false, SeqCst);
}

/// Whether a file is due there still.
pub fn is_file_due() -> bool {
    FILE_DUE.load(SeqCst)
}

/// The file that is not whole yet, and is taken away where a signal ends the program; none once it has its name.
pub fn set_part(part: Option<CString>) {
    PART.store(part.map_or(ptr::null_mut(), CString::into_raw), SeqCst);
}

/// The group of the programs that were started, by its leader, which are ended where a signal ends this one; none once they are done.
pub fn set_group(leader: Option<u32>) {
    let group = leader.and_then(|leader| i32::try_from(leader).ok());
    GROUP.store(group.unwrap_or(NO_GROUP), SeqCst);
}

/// Ends a group of programs, by its leader, which must not have been waited for.
pub fn end_group(leader: u32) {
    if let Ok(group) = i32::try_from(leader)
        && group > 1
    {
        // SAFETY: only numbers go in. 0 and 1 would be this program's own group, and every process.
        unsafe { kill(-group, SIGKILL) };
    }
}
