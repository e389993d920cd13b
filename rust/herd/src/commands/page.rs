//! `herd page`: a page with the proved calls in it, and a herd. Here it is put together; whatever it shows it asks of
//! the calls itself.

use std::ffi::OsStr;
use std::fs::{self, File};
use std::io::Read;
use std::path::Path;

use vpindex::Day;

use crate::args::{Args, misuse};
use crate::calendar::Calendar;
use crate::file::{self, Image};
use crate::report::{Failure, Outcome};

const PAGE: &str = include_str!("../../page/page.html");
const SOURCES: [(&str, &str); 9] = [
    ("style.css", include_str!("../../page/style.css")),
    ("index.js", include_str!("../../page/index.js")),
    ("drafter.js", include_str!("../../page/drafter.js")),
    ("herd.js", include_str!("../../page/herd.js")),
    ("list.js", include_str!("../../page/list.js")),
    ("table.js", include_str!("../../page/table.js")),
    ("plot.js", include_str!("../../page/plot.js")),
    ("trees.js", include_str!("../../page/trees.js")),
    ("page.js", include_str!("../../page/page.js")),
];
const CALLS: &str = include_str!("../../../../js/vpindex.js");
// The build script says where it is.
const MODULE: &[u8] = include_bytes!(env!("VPINDEX_WASM"));

pub fn run(args: &Args) -> Outcome {
    let Some(path) = args.typed("-o") else { return misuse("-o FILE has to be there") };
    let image = args.plain.first().map(|path| Image::open(path)).transpose()?;
    let name = args.plain.first().and_then(|path| Path::new(path).file_name()).unwrap_or_default();
    let day_one = Calendar::of(args)?.date(Day::MIN).unwrap_or_default();
    let page = with_herd(&name.display().to_string(), image.as_ref().map_or(&[], |image| &image.bytes), &day_one);
    if finds_page(path)? { file::put(path, page.as_bytes()) } else { file::write_new(path, page.as_bytes()) }?;
    let (bytes, head) = (page.len(), image.map(|image| format!(", {} head", image.table.len())));
    Ok(format!("{} is written: {bytes} bytes{}\n", file::shown(path), head.unwrap_or_default()).into())
}

// What is not from here, which is the herd's name, goes in last: whatever it says stays as it is.
fn with_herd(name: &str, image: &[u8], day_one: &str) -> String {
    let put = |page: String, (place, text): (&str, &str)| page.replacen(&format!("{{{{{place}}}}}"), text, 1);
    let with_sources = SOURCES.into_iter().fold(PAGE.to_string(), put);
    let calls = as_script(CALLS);
    let (module, image) = (base64(MODULE), base64(image));
    let given = [("vpindex.js", calls.as_str()), ("module", &module), ("image", &image), ("day-one", day_one)];
    put(given.into_iter().fold(with_sources, put), ("name", &escaped(name)))
}

// A module's names are the page's own where it is a script among others.
fn as_script(module: &str) -> String {
    module.lines().map(|line| format!("{}\n", line.strip_prefix("export ").unwrap_or(line))).collect()
}

fn escaped(text: &str) -> String {
    let escape = |char: char| match char {
        '&' => "&amp;".to_string(),
        '<' => "&lt;".to_string(),
        '"' => "&quot;".to_string(),
        _ => char.to_string(),
    };
    text.chars().map(escape).collect()
}

fn base64(bytes: &[u8]) -> String {
    const DIGITS: &[u8; 64] = b"ABCDEFGHIJKLMNOPQRSTUVWXYZabcdefghijklmnopqrstuvwxyz0123456789+/";
    let four = |three: &[u8]| {
        let bits = three.iter().chain(&[0; 2]).take(3).fold(0, |bits, &byte| bits << 8 | usize::from(byte));
        let digit =
            |place: usize| if place <= three.len() { DIGITS[bits >> (18 - 6 * place) & 63] as char } else { '=' };
        (0..4).map(digit).collect::<String>()
    };
    bytes.chunks(3).map(four).collect()
}

// Whether a page is there, which can be replaced; another file is left.
fn finds_page(path: &OsStr) -> Result<bool, Failure> {
    let is_page = is_page(path);
    if !is_page && fs::symlink_metadata(path).is_ok() { Err(file::left(path, "is there already")) } else { Ok(is_page) }
}

// By its first line, which names this command. What is no file, such as a pipe, is not read.
fn is_page(path: &OsStr) -> bool {
    if !fs::metadata(path).is_ok_and(|found| found.is_file()) {
        return false;
    }
    let first_line = PAGE.lines().next().unwrap_or_default().as_bytes();
    let mut begin = Vec::new();
    let read = File::open(path).and_then(|file| file.take(first_line.len() as u64).read_to_end(&mut begin));
    read.is_ok() && begin == first_line
}

#[cfg(test)]
mod tests {
    use super::*;

    #[test]
    fn in_base64() {
        let texts = ["", "f", "fo", "foo", "foob", "fooba", "foobar"];
        let written = ["", "Zg==", "Zm8=", "Zm9v", "Zm9vYg==", "Zm9vYmE=", "Zm9vYmFy"];
        assert_eq!(texts.map(|text| base64(text.as_bytes())), written);
        assert_eq!(base64(&[0xFB, 0xFF, 0xBF]), "+/+/");
    }

    #[test]
    fn put_together() {
        let page = with_herd("a\"<b>&{{module}}.img", &[1, 2, 3], "2026-01-01");
        let given = "data-name=\"a&quot;&lt;b>&amp;{{module}}.img\" data-day-one=\"2026-01-01\">AQID</script>";
        assert!(page.contains(given));
        let places = PAGE.split("{{").skip(1).map(|rest| rest.split("}}").next().unwrap_or_default());
        let unfilled: Vec<&str> = places.filter(|place| page.contains(&format!("{{{{{place}}}}}"))).collect();
        assert_eq!(unfilled, ["module"], "but for the one in the name");
        assert!(!page.contains("\nexport "));
        // nothing from here ends a script before its end
        assert_eq!(page.matches("</script").count(), PAGE.matches("</script").count());
    }
}
