//! Files. Whatever is written is written whole beside its place, and then takes its name: a cut leaves the old file, or
//! none, and never a part of one.

use std::ffi::{OsStr, OsString};
use std::fmt::Display;
use std::fs::{self, File, OpenOptions};
use std::io::{self, ErrorKind, Read, Write};
use std::os::unix::fs::{MetadataExt, chown};
use std::path::{Path, PathBuf};

use vpindex::{ImageRefusal, Order, Table};

use crate::report::{Failure, refused};
use crate::words;

// No more is read of a file: the longest image has 409,610 bytes, a list of 4,096 lines about 250,000.
const MOST_BYTES: u64 = 64 << 20;
// Behind a file's name: what is written until it is whole. One that a cut left is written over.
const BESIDE: &str = ".herd-new";

/// An image that was loaded.
pub struct Image {
    path: PathBuf,
    /// As they were read.
    pub bytes: Vec<u8>,
    pub table: Table,
    // of an image that is to be replaced: no other `herd` replaces it meanwhile
    _lock: Option<File>,
}

impl Image {
    pub fn open(path: &OsStr) -> Result<Image, Failure> {
        Image::load(path, read(path)?, None)
    }

    /// As one that can be replaced. Where another `herd` is at it, its end is waited for.
    pub fn open_to_replace(path: &OsStr) -> Result<Image, Failure> {
        if !fs::metadata(path).map_err(|error| cannot(path, "be read", &error))?.is_file() {
            return Err(refused_of(path, "it is no plain file, and cannot be replaced"));
        }
        writable(path)?;
        let lock = locked(path.as_ref(), OpenOptions::new().read(true).write(true));
        let lock = lock.map_err(|error| cannot(path, "be changed", &error))?;
        Image::load(path, read(path)?, Some(lock))
    }

    fn load(path: &OsStr, bytes: Vec<u8>, lock: Option<File>) -> Result<Image, Failure> {
        let table = Table::load(&bytes).map_err(|refusal| refused_of(path, why_no_image(&bytes, &refusal)))?;
        Ok(Image { path: path.into(), bytes, table, _lock: lock })
    }

    /// What a call refused of it.
    pub fn refused(&self, what: impl Display) -> Failure {
        refused_of(self.path.as_os_str(), what)
    }

    /// Puts the table in place of the image that was loaded, unless something else changed it meanwhile.
    pub fn replace(&self) -> Result<(), Failure> {
        let path = self.path.as_os_str();
        if fs::read(path).ok().as_ref() != Some(&self.bytes) {
            return Err(left(path, "was changed meanwhile"));
        }
        put(path, &self.table.image())
    }
}

// Forms are 0, 1 and 2.
const NEWEST_FORM: u16 = 2;

// How files begin that are no images. An image begins with its order, which is a byte of 0 to 12.
const OTHERS: [(&[u8], &str); 10] = [
    (b"tag;", "a herd list"),
    (b"\xEF\xBB\xBFtag", "a herd list"),
    (b"tag,", "a list as `herd list --csv` writes it"),
    (b"<!doctype html", "a page"),
    (b"{", "JSON"),
    (b"[", "JSON"),
    (b"%PDF", "a PDF"),
    (b"\x89PNG", "a picture"),
    (b"PK\x03\x04", "a zip file or a spreadsheet"),
    (b"\x1F\x8B", "a gzip file"),
];

/// Why bytes are no image: as what else they begin, or what the load refused.
pub fn why_no_image(bytes: &[u8], refused: &ImageRefusal) -> String {
    match OTHERS.iter().find(|(begin, _)| bytes.starts_with(begin)) {
        Some((_, what)) => format!("this is no herd image: it begins as {what}"),
        None if bytes.is_empty() => "this is no herd image: it is empty".to_string(),
        None if !may_be_image(bytes) => {
            "this is no herd image: it begins with neither an order nor a form of one".to_string()
        }
        None => words::of_herd(refused),
    }
}

// Of an image in which one of them was changed the other tells that it is one.
fn may_be_image(bytes: &[u8]) -> bool {
    u32::from(bytes[0]) <= Order::MAX.get() || words::form(bytes) <= NEWEST_FORM
}

// The file of this name, while no other `herd` is at it: one that was waited for may have put another there.
fn locked(path: &Path, options: &OpenOptions) -> io::Result<File> {
    loop {
        let file = options.open(path)?;
        match file.lock() {
            // not all file systems have locks
            Err(error) if error.kind() != ErrorKind::Unsupported => return Err(error),
            _ => {}
        }
        let ours = file.metadata()?;
        if fs::metadata(path).is_ok_and(|there| (there.dev(), there.ino()) == (ours.dev(), ours.ino())) {
            return Ok(file);
        }
    }
}

// Whoever runs it: one who may write over all files is told so too.
fn writable(path: &OsStr) -> Result<(), Failure> {
    let is_read_only = fs::metadata(path).is_ok_and(|file| file.permissions().readonly());
    if is_read_only { Err(left(path, "is read-only")) } else { Ok(()) }
}

pub fn refused_of(path: &OsStr, what: impl Display) -> Failure {
    refused(format!("{}: {what}", shown(path)))
}

/// A name, with nothing in it that a terminal would act on.
pub fn shown(name: &OsStr) -> String {
    let name = name.display().to_string();
    if name.is_empty() { "``".to_string() } else { escaped(&name) }
}

/// A text without control characters.
pub fn escaped(text: &str) -> String {
    let escape = |char: char| if char.is_control() { char.escape_default().to_string() } else { char.to_string() };
    text.chars().map(escape).collect()
}

/// The bytes of a file, whatever they are.
pub fn read(path: &OsStr) -> Result<Vec<u8>, Failure> {
    read_all(path, File::open(path))
}

/// The bytes of standard input.
pub fn read_input() -> Result<Vec<u8>, Failure> {
    read_all(INPUT.as_ref(), Ok(io::stdin()))
}

/// What standard input is called.
pub const INPUT: &str = "standard input";

fn read_all(path: &OsStr, from: io::Result<impl Read>) -> Result<Vec<u8>, Failure> {
    let mut bytes = Vec::new();
    let read = from.and_then(|from| from.take(MOST_BYTES + 1).read_to_end(&mut bytes));
    read.map_err(|error| cannot(path, "be read", &error))?;
    if bytes.len() as u64 > MOST_BYTES {
        return Err(refused_of(path, format!("it has more than {MOST_BYTES} bytes, and is no image and no list")));
    }
    Ok(bytes)
}

/// A file's name with more behind it.
pub fn with_suffix(path: impl AsRef<OsStr>, suffix: &str) -> OsString {
    let mut name = path.as_ref().to_os_string();
    name.push(suffix);
    name
}

/// Writes a file where there is none.
pub fn write_new(path: &OsStr, bytes: &[u8]) -> Result<(), Failure> {
    let there = || left(path, "is there already");
    match fs::symlink_metadata(path) {
        Ok(_) => return Err(there()),
        Err(error) if error.kind() != ErrorKind::NotFound || path.is_empty() => {
            return Err(cannot(path, "be written", &error));
        }
        Err(_) => {}
    }
    let named = write_beside(path.as_ref(), bytes, |beside, _| match fs::hard_link(beside, path) {
        Err(error) if error.kind() == ErrorKind::AlreadyExists => Err(error),
        Ok(()) => fs::remove_file(beside),
        // not all file systems have two names for a file
        Err(_) => fs::rename(beside, path),
    });
    named.map_err(|error| match error.kind() {
        ErrorKind::AlreadyExists => there(),
        _ => cannot(path, "be written", &error),
    })
}

/// Puts bytes in a file's place, or where there is none.
pub fn put(path: &OsStr, bytes: &[u8]) -> Result<(), Failure> {
    writable(path)?;
    // the file that a link leads to is replaced, and the link stays
    let target = fs::canonicalize(path).unwrap_or(path.into());
    let named = write_beside(&target, bytes, |beside, file| {
        if let Ok(old) = fs::metadata(&target) {
            file.set_permissions(old.permissions())?;
            // who may not give files away has made it his own
            let _ = chown(beside, Some(old.uid()), Some(old.gid()));
        }
        fs::rename(beside, &target)
    });
    named.map_err(|error| cannot(path, "be written", &error))
}

// Whole and on the disk beside its place, before it is given its name.
fn write_beside(target: &Path, bytes: &[u8], give_name: impl FnOnce(&Path, &File) -> io::Result<()>) -> io::Result<()> {
    let beside = PathBuf::from(with_suffix(target, BESIDE));
    let mut file = open_beside(&beside)?;
    let written = file.set_len(0).and_then(|()| file.write_all(bytes)).and_then(|()| file.sync_all());
    written.and_then(|()| give_name(&beside, &file)).inspect_err(|_| drop(fs::remove_file(&beside)))?;
    // a name that is not on the disk yet would be the old file after a cut, and that is whole
    let folder = target.parent().filter(|folder| !folder.as_os_str().is_empty()).unwrap_or(Path::new("."));
    let _ = File::open(folder).and_then(|folder| folder.sync_all());
    Ok(())
}

fn open_beside(beside: &Path) -> io::Result<File> {
    if fs::symlink_metadata(beside).is_ok_and(|found| !found.is_file()) {
        return Err(io::Error::other(format!("{} is in the way", shown(beside.as_os_str()))));
    }
    let options = || OpenOptions::new().write(true).create(true).truncate(false).clone();
    locked(beside, &options()).or_else(|error| {
        // another's, left by a cut
        let is_gone = error.kind() == ErrorKind::PermissionDenied && fs::remove_file(beside).is_ok();
        if is_gone { locked(beside, &options()) } else { Err(error) }
    })
}

/// What is not written over, and why.
pub fn left(path: &OsStr, why: &str) -> Failure {
    refused(format!("{} {why}, and is left as it is", shown(path)))
}

fn cannot(path: &OsStr, what: &str, error: &io::Error) -> Failure {
    refused(format!("{} cannot {what}: {}", shown(path), reason(error)))
}

/// Why, without the number that the system has for it.
pub fn reason(error: &io::Error) -> String {
    let text = error.to_string();
    text.split(" (os error").next().unwrap_or(&text).to_string()
}
