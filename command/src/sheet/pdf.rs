//! PDF out of the sheet, by Chromium.
use crate::failure::Failure;
use std::io::{self, Write};
use std::process::{Command, Stdio};

/// The shell makes a folder for the browser and removes it again whichever way it ends, a signal included: the sheet
/// comes in and the PDF goes out by pipes. As root Chromium has no sandbox; the sheet loads nothing and has no scripts.
const SCRIPT: &str = r#"
for browser in chromium chromium-browser google-chrome google-chrome-stable ''; do
    [ -z "$browser" ] && exit 127
    command -v "$browser" >/dev/null && break
done
folder=$(mktemp -d) || exit 1
trap 'rm -rf "$folder"' EXIT
trap 'exit 1' HUP INT TERM
cat >"$folder/sheet.html" || exit 1
[ "$(id -u)" != 0 ] || set -- --no-sandbox
timeout --foreground 300 "$browser" --headless --disable-gpu --disable-extensions --no-first-run "$@" \
    --user-data-dir="$folder/profile" --no-pdf-header-footer --print-to-pdf="$folder/sheet.pdf" \
    "file://$folder/sheet.html" >/dev/null 2>&1 </dev/null || exit 1
cat "$folder/sheet.pdf"
"#;
const NOT_FOUND: i32 = 127;

pub fn of(sheet: &str) -> Result<Vec<u8>, Failure> {
    let failed = |error: io::Error| Failure::Stream("chromium", error);
    let mut shell = Command::new("/bin/sh");
    shell.args(["-c", SCRIPT]).stdin(Stdio::piped()).stdout(Stdio::piped()).stderr(Stdio::null());
    let mut child = shell.spawn().map_err(failed)?;
    // It reads everything before it writes anything. Where it does not, its status says so.
    let fed = child.stdin.take().map_or(Ok(()), |mut stdin| stdin.write_all(sheet.as_bytes()));
    let done = child.wait_with_output().map_err(failed)?;
    if done.status.code() == Some(NOT_FOUND) {
        let missing = "Chromium makes the PDF and is not installed (in Debian, package chromium); HTML needs nothing";
        return Err(Failure::Unwilling(missing.to_string()));
    }
    let is_whole = done.stdout.starts_with(b"%PDF-") && done.stdout.trim_ascii_end().ends_with(b"%%EOF");
    if fed.is_err() || !done.status.success() || !is_whole {
        return Err(Failure::Unwilling("Chromium made no PDF of the sheet".to_string()));
    }
    Ok(done.stdout)
}
