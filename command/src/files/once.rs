//! Files that can be read once only: pipes, sockets and terminals, and standard input whatever it is.
use super::is_standard;
use std::fs::{self, File, Metadata};
use std::io::{self, IsTerminal};
use std::os::fd::AsFd;
use std::os::unix::fs::{FileTypeExt, MetadataExt};
use std::path::Path;

/// The first that would be read a second time, as a sentence names it.
pub fn read_twice(paths: &[&Path]) -> Option<String> {
    let is_again = |at: usize| paths[..at].iter().any(|before| is_one_stream(before, paths[at]));
    let again = paths[(0..paths.len()).find(|&at| is_again(at))?];
    let is_input = is_one_stream(Path::new("-"), again);
    Some(if is_input { crate::failure::STANDARD_INPUT.to_string() } else { format!("'{}'", crate::text::file(again)) })
}

fn is_one_stream(first: &Path, second: &Path) -> bool {
    is_standard(first) && is_standard(second) || stream(first).is_some_and(|found| stream(second) == Some(found))
}

/// Device and inode of a stream; none of a file that can be read again, as /dev/null can.
fn stream(path: &Path) -> Option<(u64, u64)> {
    let metadata = if is_standard(path) { standard_input().ok()? } else { fs::metadata(path).ok()? };
    let sort = metadata.file_type();
    let is_terminal = || match is_standard(path) {
        true => io::stdin().is_terminal(),
        false => File::open(path).is_ok_and(|file| file.is_terminal()),
    };
    let is_stream = sort.is_fifo() || sort.is_socket() || sort.is_char_device() && is_terminal();
    is_stream.then(|| (metadata.dev(), metadata.ino()))
}

/// What standard input is.
pub fn standard_input() -> io::Result<Metadata> {
    File::from(io::stdin().as_fd().try_clone_to_owned()?).metadata()
}
