//! A photograph of the cabin, out of the file beside the book: as it is, with its size and which way up it is.
use crate::pictures::cabin;
use crate::text;
use std::fs::{self, File};
use std::io::{ErrorKind, Read};
use std::path::Path;

pub struct Photograph {
    mime: &'static str,
    bytes: Vec<u8>,
    /// Width and height as it is shown.
    pub shape: (usize, usize),
}

const MOST_BYTES: u64 = 8_000_000;

impl Photograph {
    /// Or why it cannot be printed.
    pub fn read(path: &Path) -> Result<Photograph, String> {
        let name = text::file(path.file_name().map_or(path, Path::new));
        let told = |error: std::io::Error| match error.kind() {
            ErrorKind::NotFound => format!("there is no file '{name}' beside the book"),
            _ => format!("'{name}' cannot be read, {error}"),
        };
        // A pipe would be waited for.
        if !fs::metadata(path).map_err(told)?.is_file() {
            return Err(format!("'{name}' is no file"));
        }
        let mut bytes = Vec::new();
        File::open(path).and_then(|file| file.take(MOST_BYTES + 1).read_to_end(&mut bytes)).map_err(told)?;
        if bytes.len() as u64 > MOST_BYTES {
            return Err(format!("'{name}' has more than 8 MB"));
        }
        let found = png(&bytes).or_else(|| jpeg(&bytes)).or_else(|| webp(&bytes));
        let (mime, shape) = found.ok_or_else(|| format!("'{name}' is no PNG, JPEG or WebP"))?;
        if shape.0 == 0 || shape.1 == 0 {
            return Err(format!("'{name}' has no size"));
        }
        Ok(Photograph { mime, bytes, shape })
    }

    /// Defined once for all presets, which use it by its id.
    pub fn defined(&self) -> String {
        let (wide, high) = cabin::size(self.shape);
        format!(
            "<svg width=\"0\" height=\"0\" aria-hidden=\"true\"><defs><image id=\"{}\" width=\"{wide}\" \
             height=\"{high}\" preserveAspectRatio=\"none\" href=\"data:{};base64,{}\"/></defs></svg>\n",
            cabin::PHOTOGRAPH,
            self.mime,
            base64(&self.bytes)
        )
    }
}

type Found = (&'static str, (usize, usize));

fn big(bytes: &[u8], at: usize, count: usize) -> Option<usize> {
    bytes.get(at..at + count).map(|part| part.iter().fold(0, |number, &byte| number << 8 | usize::from(byte)))
}

fn little(bytes: &[u8], at: usize, count: usize) -> Option<usize> {
    bytes.get(at..at + count).map(|part| part.iter().rev().fold(0, |number, &byte| number << 8 | usize::from(byte)))
}

fn png(bytes: &[u8]) -> Option<Found> {
    bytes.starts_with(b"\x89PNG\r\n\x1a\n").then_some(())?;
    Some(("image/png", (big(bytes, 16, 4)?, big(bytes, 20, 4)?)))
}

fn webp(bytes: &[u8]) -> Option<Found> {
    (bytes.starts_with(b"RIFF") && bytes.get(8..12)? == b"WEBP").then_some(())?;
    let shape = match bytes.get(12..16)? {
        b"VP8X" => (1 + little(bytes, 24, 3)?, 1 + little(bytes, 27, 3)?),
        b"VP8L" => {
            let both = little(bytes, 21, 4)?;
            (1 + (both & 0x3fff), 1 + (both >> 14 & 0x3fff))
        }
        _ => (little(bytes, 26, 2)? & 0x3fff, little(bytes, 28, 2)? & 0x3fff),
    };
    Some(("image/webp", shape))
}

/// The size stands in the first frame's header; a camera's own note in front of it says which way up it is.
fn jpeg(bytes: &[u8]) -> Option<Found> {
    bytes.starts_with(b"\xff\xd8\xff").then_some(())?;
    let mut at = 2;
    let mut is_turned = false;
    loop {
        let (mark, length) = (*bytes.get(at + 1)?, big(bytes, at + 2, 2)?);
        match mark {
            _ if bytes[at] != 0xff => return None,
            0xff => {
                at += 1;
                continue;
            }
            0xe1 => is_turned |= turned(bytes.get(at + 4..at + 2 + length)?).unwrap_or(false),
            0xc4 | 0xc8 | 0xcc => {}
            0xc0..=0xcf => {
                let (high, wide) = (big(bytes, at + 5, 2)?, big(bytes, at + 7, 2)?);
                return Some(("image/jpeg", if is_turned { (high, wide) } else { (wide, high) }));
            }
            _ => {}
        }
        at += 2 + length;
    }
}

/// Whether Exif says that the picture lies on its side: orientation (0x0112) 5 to 8.
fn turned(note: &[u8]) -> Option<bool> {
    let tiff = note.strip_prefix(b"Exif\0\0")?;
    let number = if tiff.starts_with(b"II") { little } else { big };
    let start = number(tiff, 4, 4)?;
    let count = number(tiff, start, 2)?;
    let entry = (0..count).map(|entry| start + 2 + 12 * entry).find(|&at| number(tiff, at, 2) == Some(0x0112))?;
    Some((5..=8).contains(&number(tiff, entry + 8, 2)?))
}

fn base64(bytes: &[u8]) -> String {
    const DIGITS: &[u8; 64] = b"ABCDEFGHIJKLMNOPQRSTUVWXYZabcdefghijklmnopqrstuvwxyz0123456789+/";
    let mut text = String::with_capacity(bytes.len().div_ceil(3) * 4);
    for three in bytes.chunks(3) {
        let bits = (0..3).fold(0, |bits, at| bits << 8 | u32::from(*three.get(at).unwrap_or(&0)));
        for at in 0..4 {
            let digit = DIGITS[(bits >> (18 - 6 * at)) as usize & 63];
            text.push(if at <= three.len() { digit.into() } else { '=' });
        }
    }
    text
}

#[cfg(test)]
mod tests {
    use super::*;

    #[test]
    fn sizes_are_read_off_the_bytes() {
        let png_bytes = b"\x89PNG\r\n\x1a\n\0\0\0\rIHDR\0\0\x02\x80\0\0\x01\xe0";
        assert_eq!(png(png_bytes), Some(("image/png", (640, 480))));
        let frame = b"\xff\xc0\0\x11\x08\x01\xe0\x02\x80\x03";
        let plain = [&b"\xff\xd8\xff\xe0\0\x04ab"[..], b"\xff\xc4\0\x03x", frame].concat();
        assert_eq!(jpeg(&plain), Some(("image/jpeg", (640, 480))));
        let exif = b"Exif\0\0II*\0\x08\0\0\0\x01\0\x12\x01\x03\0\x01\0\0\0\x06\0\0\0\0\0\0\0";
        let head = [b"\xff\xd8\xff\xe1\0", &[exif.len() as u8 + 2][..]].concat();
        assert_eq!(jpeg(&[&head, &exif[..], frame].concat()), Some(("image/jpeg", (480, 640))));
        let lossy = [&b"RIFF\0\0\0\0WEBPVP8 \0\0\0\0\0\0\0\x9d\x01\x2a"[..], b"\x80\x02\xe0\x01"].concat();
        assert_eq!(webp(&lossy), Some(("image/webp", (640, 480))));
        let lossless = [&b"RIFF\0\0\0\0WEBPVP8L\0\0\0\0\x2f"[..], &(639u32 | 479 << 14).to_le_bytes()].concat();
        assert_eq!(webp(&lossless), Some(("image/webp", (640, 480))));
        let extended = b"RIFF\0\0\0\0WEBPVP8X\x0a\0\0\0\0\0\0\0\x7f\x02\0\xdf\x01\0";
        assert_eq!(webp(extended), Some(("image/webp", (640, 480))));
        for cut in 0..plain.len() {
            assert_eq!(jpeg(&plain[..cut]).is_some(), cut >= plain.len() - 1, "{cut}");
        }
    }

    #[test]
    fn bytes_become_base64() {
        let texts = ["", "f", "fo", "foo", "foobar"].map(|text| base64(text.as_bytes()));
        assert_eq!(texts, ["", "Zg==", "Zm8=", "Zm9v", "Zm9vYmFy"]);
    }
}
