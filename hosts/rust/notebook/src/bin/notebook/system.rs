//! What the standard library does not have, by calls of the system: the only unsafe code of the command.

use std::alloc::{GlobalAlloc, Layout, System};
use std::cell::Cell;
use std::ffi::{c_char, c_int, c_uint, c_ulong, c_void, CStr, CString};
use std::fs::File;
use std::io;
use std::mem::ManuallyDrop;
use std::os::fd::FromRawFd;
use std::os::unix::ffi::OsStrExt;
use std::path::Path;
use std::ptr;
use std::sync::atomic::{AtomicBool, Ordering};

/// The system's numbers, as Linux has them on x86-64.
const RLIMIT_CORE: c_int = 4;
const RLIMIT_NOFILE: c_int = 7;
const M_ARENA_MAX: c_int = -8;
const SIGILL: c_int = 4;
const SIGABRT: c_int = 6;
const SIGBUS: c_int = 7;
const SIGSEGV: c_int = 11;
const SIGXCPU: c_int = 24;
const SIGXFSZ: c_int = 25;
const IGNORED: usize = 1;
const SA_ONSTACK: c_int = 0x0800_0000;
const F_GETFD: c_int = 1;
const AF_UNIX: c_int = 1;
const SOCK_STREAM: c_int = 1;
const AT_FDCWD: c_int = -100;
const AT_EACCESS: c_int = 0x200;
const W_OK: c_int = 2;
const X_OK: c_int = 1;
const RENAME_NOREPLACE: c_uint = 1;
const TIOCGWINSZ: c_ulong = 0x5413;
const EBADF: i32 = 9;
const EACCES: i32 = 13;
const EROFS: i32 = 30;
pub const EINVAL: i32 = 22;
pub const ENOSYS: i32 = 38;
pub const O_NONBLOCK: i32 = 0o4000;
pub const O_DIRECTORY: i32 = 0o200_000;
pub const O_NOFOLLOW: i32 = 0o400_000;

/// The status of a run that could not be done.
const FAILED: c_int = 2;

#[repr(C)]
struct Limit {
    soft: u64,
    hard: u64,
}

#[repr(C)]
#[derive(Default)]
struct WindowSize {
    rows: u16,
    columns: u16,
    pixels: [u16; 2],
}

#[repr(C)]
struct Action {
    handler: usize,
    mask: [u64; 16],
    flags: c_int,
    restorer: usize,
}

#[repr(C)]
struct Stack {
    start: *mut c_void,
    flags: c_int,
    size: usize,
}

extern "C" {
    fn getrlimit(resource: c_int, limit: *mut Limit) -> c_int;
    fn setrlimit(resource: c_int, limit: *const Limit) -> c_int;
    fn mallopt(parameter: c_int, value: c_int) -> c_int;
    fn signal(number: c_int, handler: usize) -> usize;
    fn sigaction(number: c_int, action: *const Action, before: *mut Action) -> c_int;
    fn sigaltstack(stack: *const Stack, before: *mut Stack) -> c_int;
    fn fcntl(descriptor: c_int, command: c_int, ...) -> c_int;
    fn socket(domain: c_int, kind: c_int, protocol: c_int) -> c_int;
    fn ioctl(descriptor: c_int, request: c_ulong, ...) -> c_int;
    fn faccessat(at: c_int, path: *const c_char, mode: c_int, flags: c_int) -> c_int;
    fn renameat2(old_at: c_int, old: *const c_char, new_at: c_int, new: *const c_char, flags: c_uint) -> c_int;
    fn write(descriptor: c_int, bytes: *const c_void, count: usize) -> isize;
    fn _exit(status: c_int) -> !;
}

// ---- Before the runtime

/// The descriptors 0, 1, 2 that were closed at the start.
static CLOSED: [AtomicBool; 3] = [const { AtomicBool::new(false) }; 3];

/// The stack of `fault`: where the stack itself is full there is no other.
static mut FAULT_STACK: [u8; FAULT_STACK_BYTES] = [0; FAULT_STACK_BYTES];
const FAULT_STACK_BYTES: usize = 16 << 10;

/// Rust's runtime opens /dev/null for closed descriptors, and aborts if it can't: what was closed is only known before it.
#[used]
#[link_section = ".init_array"]
static BEFORE_THE_RUNTIME: extern "C" fn(c_int, *const *const c_char) = before_the_runtime;

/// glibc hands the words of the command line to it, as to `main`.
extern "C" fn before_the_runtime(count: c_int, words: *const *const c_char) {
    set_limits();
    set_signals();
    note_closed();
    note_json(usize::try_from(count).unwrap_or_default(), words);
}

/// Whether lines are to be objects: also the last one, where there is no memory to look at the command line.
fn note_json(count: usize, words: *const *const c_char) {
    for at in 1..count {
        // SAFETY: there are so many words, each ended by a zero, and they stay.
        let word = unsafe { CStr::from_ptr(*words.add(at)) }.to_bytes();
        if word == b"--" {
            return;
        }
        if word == b"--json" {
            JSON.store(true, Ordering::Relaxed);
        }
    }
}

fn set_limits() {
    let none = Limit { soft: 0, hard: 0 };
    let mut files = Limit { soft: 0, hard: 0 };
    // SAFETY: the pointers are to structures of the form that the system has.
    unsafe {
        // A core file would hold patients' records.
        setrlimit(RLIMIT_CORE, &none);
        // The pieces of a cut stay open until all are written.
        if getrlimit(RLIMIT_NOFILE, &mut files) == 0 {
            files.soft = files.hard;
            setrlimit(RLIMIT_NOFILE, &files);
        }
        // Where the address space is limited an arena for each thread can't be had, and every small piece takes a page.
        mallopt(M_ARENA_MAX, 1);
    }
}

fn set_signals() {
    let action = Action { handler: fault as *const () as usize, mask: [0; 16], flags: SA_ONSTACK, restorer: 0 };
    // SAFETY: the pointers are to structures of the form that the system has, and the stack is used for nothing else.
    unsafe {
        // A file that grows beyond the limit is then an error of write.
        signal(SIGXFSZ, IGNORED);
        let stack = Stack { start: (&raw mut FAULT_STACK).cast(), flags: 0, size: FAULT_STACK_BYTES };
        sigaltstack(&stack, ptr::null_mut());
        // Of some memory the standard library has its own, and aborts where there is none. For two of these signals the
        // runtime would set up a stack in every thread, and panic where it can't.
        for number in [SIGABRT, SIGBUS, SIGILL, SIGSEGV, SIGXCPU] {
            sigaction(number, &action, ptr::null_mut());
        }
    }
}

fn note_closed() {
    for (descriptor, closed) in (0..).zip(&CLOSED) {
        // SAFETY: the calls take numbers alone.
        unsafe {
            if fcntl(descriptor, F_GETFD) == -1 {
                closed.store(true, Ordering::Relaxed);
                // A file opened later must not get the number of a standard stream. /dev/stdin leads to what has it: a
                // socket can't be opened so, but /dev/null would be an empty file.
                if socket(AF_UNIX, SOCK_STREAM, 0) != descriptor {
                    _exit(FAILED);
                }
            }
        }
    }
}

extern "C" fn fault(_signal: c_int) {
    end(FAULT);
}

// ---- The standard streams

#[derive(Clone, Copy)]
pub enum Standard {
    Input = 0,
    Output = 1,
    Error = 2,
}

impl Standard {
    /// The stream as a file that stays open. One that was closed at the start is an error, as every failed write is: the
    /// standard library takes both for success.
    pub fn file(self) -> io::Result<ManuallyDrop<File>> {
        if CLOSED.get(self as usize).is_some_and(|closed| closed.load(Ordering::Relaxed)) {
            return Err(io::Error::from_raw_os_error(EBADF));
        }
        // SAFETY: the descriptor is open for as long as the process lives, as nothing closes it.
        Ok(ManuallyDrop::new(unsafe { File::from_raw_fd(self as c_int) }))
    }
}

/// The columns of the terminal that standard error is, if it tells.
pub fn columns() -> Option<usize> {
    let mut size = WindowSize::default();
    // SAFETY: this request writes a structure of this form.
    let told = unsafe { ioctl(Standard::Error as c_int, TIOCGWINSZ, &raw mut size) } == 0;
    (told && size.columns > 0).then_some(usize::from(size.columns))
}

// ---- Files

/// Renames a file to a name that is not there yet.
pub fn rename_new(from: &Path, to: &Path) -> io::Result<()> {
    let [from, to] = [from, to].map(|path| CString::new(path.as_os_str().as_bytes()));
    let (from, to) = (from?, to?);
    // SAFETY: both are strings that end with a zero.
    match unsafe { renameat2(AT_FDCWD, from.as_ptr(), AT_FDCWD, to.as_ptr(), RENAME_NOREPLACE) } {
        0 => Ok(()),
        _ => Err(io::Error::last_os_error()),
    }
}

/// An error if files must not be made in a folder.
pub fn may_make_in(folder: &Path) -> io::Result<()> {
    let folder = CString::new(folder.as_os_str().as_bytes())?;
    // SAFETY: it is a string that ends with a zero.
    let told = unsafe { faccessat(AT_FDCWD, folder.as_ptr(), W_OK | X_OK, AT_EACCESS) };
    let error = io::Error::last_os_error();
    // Whatever else it fails with tells nothing of the folder: some systems let nobody ask.
    if told == 0 || !matches!(error.raw_os_error(), Some(EACCES | EROFS)) {
        return Ok(());
    }
    Err(error)
}

// ---- Memory

thread_local! {
    static MAY_FAIL: Cell<bool> = const { Cell::new(false) };
}

/// Does what handles a lack of memory itself: only within it the allocator answers that there is none.
pub fn may_fail<T>(work: impl FnOnce() -> T) -> T {
    MAY_FAIL.set(true);
    let result = work();
    MAY_FAIL.set(false);
    result
}

/// The system's memory. Where there is no more of it the process ends, but for `may_fail`: Rust would abort it.
pub struct Memory;

fn had(memory: *mut u8) -> *mut u8 {
    if memory.is_null() && !MAY_FAIL.try_with(Cell::get).unwrap_or(false) {
        end(NO_MEMORY);
    }
    memory
}

// SAFETY: every call is handed on as it came.
unsafe impl GlobalAlloc for Memory {
    unsafe fn alloc(&self, layout: Layout) -> *mut u8 {
        had(unsafe { System.alloc(layout) })
    }

    unsafe fn alloc_zeroed(&self, layout: Layout) -> *mut u8 {
        had(unsafe { System.alloc_zeroed(layout) })
    }

    unsafe fn realloc(&self, memory: *mut u8, layout: Layout, size: usize) -> *mut u8 {
        had(unsafe { System.realloc(memory, layout, size) })
    }

    unsafe fn dealloc(&self, memory: *mut u8, layout: Layout) {
        unsafe { System.dealloc(memory, layout) }
    }
}

// ---- The last resort

/// Whether the command line asks for objects.
pub static JSON: AtomicBool = AtomicBool::new(false);

/// A last line, as text and as an object: nothing can be made when it is needed.
type LastLine = [&'static str; 2];

macro_rules! last_line {
    ($message:literal) => {
        [concat!("notebook: ", $message, "\n"), concat!("{\"error\":\"", $message, "\"}\n")]
    };
}

const NO_MEMORY: LastLine = last_line!("memory cannot be had");
const FAULT: LastLine = last_line!("the system has ended the run: a limit on memory, stack or time");
pub const MISTAKE: LastLine = last_line!("a mistake in this program has ended the run");

/// Ends the process at once with a line on standard error.
pub fn end([text, object]: LastLine) -> ! {
    let line = if JSON.load(Ordering::Relaxed) { object } else { text };
    // SAFETY: the pointer is good for reading the length. Neither call needs memory, or a lock that a thread may hold.
    unsafe {
        write(Standard::Error as c_int, line.as_ptr().cast(), line.len());
        _exit(FAILED)
    }
}
