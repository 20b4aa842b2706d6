//! What only the system can do: tell whether a stream was closed when the program began and how wide the terminal is,
//! give a file a name that no other has, read and write its extended attributes, and tidy up where a signal ends the
//! program.
use std::ffi::{CStr, CString, c_char, c_int, c_uint, c_ulong, c_void};
use std::fs::File;
use std::io;
use std::os::fd::AsRawFd;
use std::os::unix::ffi::OsStrExt;
use std::path::Path;
use std::ptr;
use std::sync::atomic::{AtomicPtr, AtomicU8, Ordering};

unsafe extern "C" {
    fn access(path: *const c_char, mode: c_int) -> c_int;
    fn fcntl(fd: c_int, command: c_int, ...) -> c_int;
    fn geteuid() -> c_uint;
    fn ioctl(fd: c_int, request: c_ulong, ...) -> c_int;
    fn flistxattr(fd: c_int, list: *mut c_char, size: usize) -> isize;
    fn fgetxattr(fd: c_int, name: *const c_char, value: *mut c_void, size: usize) -> isize;
    fn fsetxattr(fd: c_int, name: *const c_char, value: *const c_void, size: usize, flags: c_int) -> c_int;
    fn fremovexattr(fd: c_int, name: *const c_char) -> c_int;
    fn pthread_sigmask(how: c_int, set: *const Signals, old: *mut Signals) -> c_int;
    fn raise(signal: c_int) -> c_int;
    fn sigaddset(set: *mut Signals, signal: c_int) -> c_int;
    fn signal(signal: c_int, handler: usize) -> usize;
    fn unlink(path: *const c_char) -> c_int;
    fn renameat2(folder: c_int, from: *const c_char, to_folder: c_int, to: *const c_char, flags: c_uint) -> c_int;
}

const F_GETFD: c_int = 1;
const W_OK: c_int = 2;
const TIOCGWINSZ: c_ulong = 0x5413;
const AT_FDCWD: c_int = -100;
const RENAME_NOREPLACE: c_uint = 1;
/// A file has no such extended attribute.
pub const ENODATA: i32 = 61;
/// The most bytes of a list of extended attributes, or of one.
const MOST_OF_ATTRIBUTES: usize = 65536;

/// Bit k for the stream k, where it is open.
static OPEN: AtomicU8 = AtomicU8::new(0);

/// Before `main` the Rust runtime opens /dev/null in place of a closed stream, where all that is written is lost in
/// silence. So the look is taken earlier still.
#[used]
#[unsafe(link_section = ".init_array")]
static LOOK: extern "C" fn() = look;

extern "C" fn look() {
    for stream in 0..3 {
        // SAFETY: F_GETFD takes no further argument and only asks.
        if unsafe { fcntl(stream, F_GETFD) } >= 0 {
            OPEN.fetch_or(1 << stream, Ordering::Relaxed);
        }
    }
}

/// Whether standard input (0), output (1) or error (2) was open when the program began.
pub fn was_open(stream: u8) -> bool {
    OPEN.load(Ordering::Relaxed) & (1 << stream) != 0
}

/// The columns of the terminal on standard output.
pub fn terminal_columns() -> Option<usize> {
    let mut size = [0u16; 4];
    // SAFETY: TIOCGWINSZ writes four 16-bit numbers: rows, columns and two sizes in pixels.
    let answer = unsafe { ioctl(1, TIOCGWINSZ, size.as_mut_ptr()) };
    (answer == 0 && size[1] > 0).then_some(size[1].into())
}

/// The user whose rights the program has.
pub fn user() -> u32 {
    // SAFETY: the call takes nothing and cannot fail.
    unsafe { geteuid() }
}

/// Whether this user may write a file, or make files in a folder.
pub fn may_write(path: &Path) -> io::Result<()> {
    let path = CString::new(path.as_os_str().as_bytes())?;
    // SAFETY: a string with a zero at its end, which outlives the call.
    done(unsafe { access(path.as_ptr(), W_OK) })
}

/// Renames a file to a name that no other has; one that exists stays. Not every file system can do it.
pub fn rename_to_new(from: &Path, to: &Path) -> io::Result<()> {
    let from = CString::new(from.as_os_str().as_bytes())?;
    let to = CString::new(to.as_os_str().as_bytes())?;
    // SAFETY: both are strings with a zero at their end, which outlive the call.
    let answer = unsafe { renameat2(AT_FDCWD, from.as_ptr(), AT_FDCWD, to.as_ptr(), RENAME_NOREPLACE) };
    done(answer)
}

/// The names of a file's extended attributes; none where its file system has no such thing.
pub fn attributes(file: &File) -> io::Result<Vec<CString>> {
    let mut list = vec![0u8; MOST_OF_ATTRIBUTES];
    // SAFETY: the list is as long as the call is told.
    let length = unsafe { flistxattr(file.as_raw_fd(), list.as_mut_ptr().cast(), list.len()) };
    match sized(length, list) {
        Ok(list) => {
            let names = list.split_inclusive(|&byte| byte == 0);
            Ok(names.filter_map(|name| CStr::from_bytes_with_nul(name).ok()).map(CString::from).collect())
        }
        Err(error) if error.kind() == io::ErrorKind::Unsupported => Ok(Vec::new()),
        Err(error) => Err(error),
    }
}

/// The value of an extended attribute.
pub fn attribute(file: &File, name: &CStr) -> io::Result<Vec<u8>> {
    let mut value = vec![0u8; MOST_OF_ATTRIBUTES];
    // SAFETY: the name has a zero at its end, the value is as long as the call is told.
    let length = unsafe { fgetxattr(file.as_raw_fd(), name.as_ptr(), value.as_mut_ptr().cast(), value.len()) };
    sized(length, value)
}

fn sized(length: isize, mut bytes: Vec<u8>) -> io::Result<Vec<u8>> {
    bytes.truncate(usize::try_from(length).map_err(|_| io::Error::last_os_error())?);
    Ok(bytes)
}

pub fn set_attribute(file: &File, name: &CStr, value: &[u8]) -> io::Result<()> {
    // SAFETY: the name has a zero at its end, the value is as long as the call is told.
    done(unsafe { fsetxattr(file.as_raw_fd(), name.as_ptr(), value.as_ptr().cast(), value.len(), 0) })
}

pub fn remove_attribute(file: &File, name: &CStr) -> io::Result<()> {
    // SAFETY: the name has a zero at its end.
    done(unsafe { fremovexattr(file.as_raw_fd(), name.as_ptr()) })
}

fn done(answer: c_int) -> io::Result<()> {
    if answer == 0 { Ok(()) } else { Err(io::Error::last_os_error()) }
}

/// The type sigset_t of glibc and musl.
#[repr(C)]
struct Signals([c_ulong; 16]);

const SIG_DFL: usize = 0;
const SIG_IGN: usize = 1;
const SIG_BLOCK: c_int = 0;
const SIG_SETMASK: c_int = 2;
const SIGXFSZ: c_int = 25;
/// SIGHUP, SIGINT, SIGTERM: what ends a program that does nothing about it, and is sent to end it.
const ENDING: [c_int; 3] = [1, 2, 15];

/// The files that are removed where a signal ends the program; null where there is none.
static UNFINISHED: [AtomicPtr<c_char>; 4] = [const { AtomicPtr::new(ptr::null_mut()) }; 4];

/// From now on a signal that ends the program removes its unfinished files first, and a file that is longer than the
/// user's limit is a write that fails. A signal that was ignored stays so.
pub fn handle_signals() {
    for number in ENDING {
        handle(number, end_by as extern "C" fn(c_int) as usize);
    }
    // Not ignored: a program that this one starts has it as it was.
    handle(SIGXFSZ, go_on as extern "C" fn(c_int) as usize);
}

fn handle(number: c_int, handler: usize) {
    // SAFETY: the handlers have the type that the call expects, and do only what is allowed in one.
    unsafe {
        if signal(number, handler) == SIG_IGN {
            signal(number, SIG_IGN);
        }
    }
}

extern "C" fn go_on(_: c_int) {}

extern "C" fn end_by(number: c_int) {
    for slot in &UNFINISHED {
        let path = slot.swap(ptr::null_mut(), Ordering::SeqCst);
        if !path.is_null() {
            // SAFETY: a string with a zero at its end, which is never freed once it was put here.
            unsafe { unlink(path) };
        }
    }
    // SAFETY: both calls are allowed in a handler. The signal comes again at its end, and ends the program.
    unsafe {
        signal(number, SIG_DFL);
        raise(number);
    }
}

/// A file is removed by a signal until this is dropped.
pub struct RemovedOnSignal(Option<usize>);

/// Makes a file that is removed where a signal ends the program. None comes between the two.
pub fn removed_on_signal(
    path: CString,
    make: impl FnOnce() -> io::Result<File>,
) -> io::Result<(File, RemovedOnSignal)> {
    undisturbed(|| {
        let file = make()?;
        Ok((file, RemovedOnSignal(take_slot(path))))
    })
}

/// Does something short; a signal that would end the program comes behind it.
pub fn undisturbed<T>(work: impl FnOnce() -> T) -> T {
    let (mut ending, mut before) = (Signals([0; 16]), Signals([0; 16]));
    // SAFETY: all zeros is the empty set; both sets outlive the calls.
    unsafe {
        for number in ENDING {
            sigaddset(&mut ending, number);
        }
        pthread_sigmask(SIG_BLOCK, &ending, &mut before);
    }
    let done = work();
    // SAFETY: the set is the one that the first call wrote.
    unsafe { pthread_sigmask(SIG_SETMASK, &before, ptr::null_mut()) };
    done
}

fn take_slot(path: CString) -> Option<usize> {
    let path = path.into_raw();
    let free = |slot: &AtomicPtr<c_char>| {
        slot.compare_exchange(ptr::null_mut(), path, Ordering::SeqCst, Ordering::SeqCst).is_ok()
    };
    UNFINISHED.iter().position(free)
}

impl Drop for RemovedOnSignal {
    fn drop(&mut self) {
        if let Some(slot) = self.0 {
            // Not freed: a handler may be reading it.
            UNFINISHED[slot].store(ptr::null_mut(), Ordering::SeqCst);
        }
    }
}
