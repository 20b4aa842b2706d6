//! PNG out of SVG, by librsvg's program.
use crate::failure::Failure;
use std::io::{self, ErrorKind, Write};
use std::process::{Command, Stdio};

const PROGRAM: &str = "rsvg-convert";

pub fn of(picture: &str) -> Result<Vec<u8>, Failure> {
    let failed = |error: io::Error| match error.kind() {
        ErrorKind::NotFound => Failure::Unwilling(format!(
            "{PROGRAM} makes the PNG and is not installed (in Debian, package librsvg2-bin); SVG needs nothing"
        )),
        _ => Failure::Stream(PROGRAM, error),
    };
    let command = Command::new(PROGRAM).args(["--zoom", "2"]).stdin(Stdio::piped()).stdout(Stdio::piped()).spawn();
    let mut child = command.map_err(failed)?;
    // It reads everything before it writes anything.
    let fed = child.stdin.take().map_or(Ok(()), |mut stdin| stdin.write_all(picture.as_bytes()));
    let done = child.wait_with_output().map_err(failed)?;
    if fed.is_err() || !done.status.success() || !done.stdout.starts_with(b"\x89PNG") {
        return Err(Failure::Unwilling(format!("{PROGRAM} made no PNG of the picture")));
    }
    Ok(done.stdout)
}
