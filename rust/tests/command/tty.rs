//! What the command prints on a tty.

use std::ffi::{c_char, c_int, CStr};
use std::fs::File;
use std::io::Read;
use std::os::fd::{AsRawFd, FromRawFd};
use std::process::Command;

extern "C" {
    fn posix_openpt(flags: c_int) -> c_int;
    fn grantpt(tty: c_int) -> c_int;
    fn unlockpt(tty: c_int) -> c_int;
    fn ptsname_r(tty: c_int, name: *mut c_char, count: usize) -> c_int;
}

/// O_RDWR and O_NOCTTY.
const READ_AND_WRITE: c_int = 0o402;

/// Two ends of a new tty: what is written to the second is read from the first.
fn tty() -> (File, File) {
    let mut name: [c_char; 64] = [0; 64];
    // SAFETY: the descriptor is owned by the file alone, and the name's space is as long as said.
    let (file, path) = unsafe {
        let file = File::from_raw_fd(posix_openpt(READ_AND_WRITE));
        let tty = file.as_raw_fd();
        assert_eq!((grantpt(tty), unlockpt(tty)), (0, 0));
        assert_eq!(ptsname_r(tty, name.as_mut_ptr(), name.len()), 0);
        (file, CStr::from_ptr(name.as_ptr()))
    };
    let path = path.to_str().expect("a tty's name is ASCII");
    let other = File::options().read(true).write(true).open(path);
    (file, other.expect("a tty can be opened"))
}

/// What the command prints on a tty, with its line ends as they were.
pub fn printed_on_tty(mut command: Command) -> String {
    let (mut reader, writer) = tty();
    let mut child = command.stdout(writer).spawn().expect("it runs");
    // The command's end of the tty is closed here, so that reading ends with the child.
    drop(command);
    let mut bytes = Vec::new();
    // A tty whose other end is closed gives an error after the last byte.
    let _ = reader.read_to_end(&mut bytes);
    assert!(child.wait().expect("it ends").success());
    String::from_utf8(bytes)
        .expect("UTF-8")
        .replace("\r\n", "\n")
}
