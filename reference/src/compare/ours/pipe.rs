// A pipe by which octets come in pieces: each is written only once the one before has been read.
use std::ffi::{c_int, c_short, c_ulong};
use std::io::{self, ErrorKind, PipeReader, PipeWriter, Write};
use std::os::fd::AsRawFd;

#[repr(C)]
struct PollFd {
    fd: c_int,
    events: c_short,
    revents: c_short,
}

/// Those of Linux.
const F_SETPIPE_SZ: c_int = 1031;
const POLLOUT: c_short = 4;

/// The least that a pipe can hold. Such a pipe has room for more exactly if it is empty, as long as no
/// more than this is written at once.
const PAGE: usize = 4_096;

extern "C" {
    fn fcntl(fd: c_int, command: c_int, ...) -> c_int;
    fn poll(fds: *mut PollFd, count: c_ulong, timeout: c_int) -> c_int;
}

pub fn of_one_page() -> io::Result<(PipeReader, PipeWriter)> {
    let (reader, writer) = io::pipe()?;
    // SAFETY: the descriptor is open, and the command takes one int.
    let size = unsafe { fcntl(writer.as_raw_fd(), F_SETPIPE_SZ, PAGE as c_int) };
    match usize::try_from(size) {
        Ok(PAGE) => Ok((reader, writer)),
        Ok(_) => Err(io::Error::other("no pipe of one page")),
        Err(_) => Err(io::Error::last_os_error()),
    }
}

/// Writes the pieces, up to the last or until nobody reads any more. A piece longer than a page is read
/// as several.
pub fn feed(mut writer: PipeWriter, pieces: &[&[u8]]) -> io::Result<()> {
    for piece in pieces.iter().flat_map(|piece| piece.chunks(PAGE)) {
        wait_until_empty(&writer)?;
        match writer.write_all(piece) {
            Err(error) if error.kind() == ErrorKind::BrokenPipe => return Ok(()),
            written => written?,
        }
    }
    Ok(())
}

/// Waits until all has been read, or until there is no reader.
fn wait_until_empty(writer: &PipeWriter) -> io::Result<()> {
    let mut polled = PollFd { fd: writer.as_raw_fd(), events: POLLOUT, revents: 0 };
    loop {
        // SAFETY: one struct, laid out as the call has it, which outlives the call.
        if unsafe { poll(&mut polled, 1, -1) } >= 0 {
            return Ok(());
        }
        let error = io::Error::last_os_error();
        if error.kind() != ErrorKind::Interrupted {
            return Err(error);
        }
    }
}
