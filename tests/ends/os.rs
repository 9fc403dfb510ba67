//! What the standard library lacks: the size and the flags of a pipe, signals, pseudo-terminals.

use std::ffi::{c_char, c_int, CStr};
use std::fs::{File, OpenOptions};
use std::io;
use std::os::fd::{AsRawFd, FromRawFd};
use std::os::unix::fs::OpenOptionsExt;

extern "C" {
    fn fcntl(fd: c_int, command: c_int, ...) -> c_int;
    fn kill(process: c_int, signal: c_int) -> c_int;
    fn posix_openpt(flags: c_int) -> c_int;
    fn grantpt(fd: c_int) -> c_int;
    fn unlockpt(fd: c_int) -> c_int;
    fn ptsname_r(fd: c_int, name: *mut c_char, room: usize) -> c_int;
    fn tcgetattr(fd: c_int, modes: *mut Modes) -> c_int;
    fn tcsetattr(fd: c_int, when: c_int, modes: *const Modes) -> c_int;
    fn cfmakeraw(modes: *mut Modes);
}

const F_SETFL: c_int = 4;
const F_SETPIPE_SZ: c_int = 1031;
const O_RDWR: c_int = 2;
const O_NOCTTY: c_int = 0o400;
const O_NONBLOCK: c_int = 0o4000;
const O_CLOEXEC: c_int = 0o2000000;
const ICANON: u32 = 2;

pub const SIGKILL: c_int = 9;
pub const SIGCONT: c_int = 18;
pub const SIGSTOP: c_int = 19;

/// A terminal's modes: four words of flags, and more that is left as it is.
#[repr(C)]
struct Modes {
    flags: [u32; 4],
    rest: [u8; 240],
}

fn done(answer: c_int) -> io::Result<c_int> {
    if answer < 0 {
        Err(io::Error::last_os_error())
    } else {
        Ok(answer)
    }
}

/// Has a pipe hold so many bytes.
pub fn resize(pipe: &impl AsRawFd, bytes: c_int) -> io::Result<()> {
    done(unsafe { fcntl(pipe.as_raw_fd(), F_SETPIPE_SZ, bytes) }).map(drop)
}

/// Has no call on this end wait.
pub fn never_wait(end: &impl AsRawFd) -> io::Result<()> {
    done(unsafe { fcntl(end.as_raw_fd(), F_SETFL, O_NONBLOCK) }).map(drop)
}

pub fn signal(process: u32, signal: c_int) -> io::Result<()> {
    done(unsafe { kill(process as c_int, signal) }).map(drop)
}

/// A pseudo-terminal that neither echoes nor alters: the side where one types, and the program's side.
/// With `lines` it hands over whole lines, and byte 4 at a line's start is the end of the input.
pub fn terminal(lines: bool) -> io::Result<(File, File)> {
    let typed = unsafe { File::from_raw_fd(done(posix_openpt(O_RDWR | O_NOCTTY | O_CLOEXEC))?) };
    let mut name = [0; 100];
    let fd = typed.as_raw_fd();
    done(unsafe { grantpt(fd) })?;
    done(unsafe { unlockpt(fd) })?;
    done(-unsafe { ptsname_r(fd, name.as_mut_ptr(), name.len()) }.abs())?;
    let name = unsafe { CStr::from_ptr(name.as_ptr()) }.to_string_lossy().into_owned();
    let side = OpenOptions::new().read(true).write(true).custom_flags(O_NOCTTY).open(name)?;
    set_modes(&side, lines)?;
    Ok((typed, side))
}

fn set_modes(terminal: &File, lines: bool) -> io::Result<()> {
    let mut modes = Modes { flags: [0; 4], rest: [0; 240] };
    done(unsafe { tcgetattr(terminal.as_raw_fd(), &mut modes) })?;
    unsafe { cfmakeraw(&mut modes) };
    if lines {
        modes.flags[3] |= ICANON;
    }
    done(unsafe { tcsetattr(terminal.as_raw_fd(), 0, &modes) }).map(drop)
}
