//! Each file of `tests/transcripts`, and what README.md shows, is run as it is printed: a line after `$ ` by the shell,
//! in a folder with the example lists and images of older forms in it. What follows the line has to be what it writes,
//! `! ` being before a line on standard error, and its status in brackets where that is not 0.
//!
//! With HERD_STORE in the environment the files are written anew; the changes are then for reading.

mod folder;

use std::env;
use std::fs;
use std::path::{Path, PathBuf};
use std::process::Command;

use folder::folder;

const ROOT: &str = concat!(env!("CARGO_MANIFEST_DIR"), "/../..");

// `spoil FROM TO BYTE OCTAL..` puts bytes, each as a backslash and three octal digits, in a copy.
const SPOIL: &str = r#"spoil() { cp "$1" "$2" && printf "$4" | dd of="$2" bs=1 seek="$3" conv=notrunc status=none; }"#;

const FILES: [(&str, &str); 7] = [
    ("examples/sound.list", "monday.list"),
    ("examples/fault.list", "tuesday.list"),
    ("examples/sound.list", "herd.list"),
    ("examples/fault.list", "fault.list"),
    ("examples/byte.list", "byte.list"),
    ("rust/outside/tests/form_0/metric_0.image", "form_0.img"),
    ("rust/outside/tests/form_1/metric_1.image", "form_1.img"),
];

fn folder_with_files(name: &str) -> PathBuf {
    let folder = folder(name);
    for (from, to) in FILES {
        fs::copy(Path::new(ROOT).join(from), folder.join(to)).expect(from);
    }
    folder
}

fn outcome(folder: &Path, line: &str) -> String {
    let program = Path::new(env!("CARGO_BIN_EXE_herd")).parent().expect("in a folder");
    let path = env::join_paths([program.into()].into_iter().chain(env::split_paths(&env::var_os("PATH").unwrap())));
    let shell = Command::new("sh")
        .args(["-c", &format!("{SPOIL}\n{line}")])
        .env("PATH", path.expect("no colon in the folder's name"))
        .env_remove("HERD_DAY_ONE")
        .current_dir(folder)
        .output()
        .expect("a shell");
    let (out, err) = (String::from_utf8(shell.stdout), String::from_utf8(shell.stderr));
    let err = err.expect("text").lines().map(|line| format!("! {line}\n")).collect::<String>();
    let status = shell.status.code().filter(|&status| status != 0).map(|status| format!("[{status}]\n"));
    out.expect("text") + &err + &status.unwrap_or_default()
}

// The transcript as it is now: what is typed and what is said of it as in the text, the outcomes new.
fn run(folder: &Path, text: &str) -> String {
    let mut written = String::new();
    for line in text.lines() {
        if let Some(typed) = line.strip_prefix("$ ") {
            written += &format!("{line}\n{}", outcome(folder, typed));
        } else if line.starts_with("# ") {
            let between = if written.is_empty() { "" } else { "\n" };
            written += &format!("{between}{line}\n");
        }
    }
    written
}

fn hold(file: &Path, stored: &str, now: &str) {
    if env::var_os("HERD_STORE").is_some() {
        return fs::write(file, now).expect("a file of the repository");
    }
    let (stored, now): (Vec<&str>, Vec<&str>) = (stored.lines().collect(), now.lines().collect());
    for (at, (stored, now)) in stored.iter().zip(&now).enumerate() {
        assert_eq!(now, stored, "{}, line {}, is not as it is stored", file.display(), at + 1);
    }
    assert_eq!(now.len(), stored.len(), "{} has another number of lines", file.display());
}

#[test]
fn stored() {
    let transcripts = Path::new(env!("CARGO_MANIFEST_DIR")).join("tests/transcripts");
    let files: Vec<PathBuf> = fs::read_dir(transcripts).expect("a folder").map(|file| file.unwrap().path()).collect();
    assert!(!files.is_empty());
    for file in files {
        let text = fs::read_to_string(&file).expect("text");
        let name = file.file_stem().expect("a name").to_string_lossy();
        hold(&file, &text, &run(&folder_with_files(&name), &text));
    }
}

#[test]
fn documented() {
    let (file, folder) = (Path::new(env!("CARGO_MANIFEST_DIR")).join("README.md"), folder_with_files("documented"));
    let text = fs::read_to_string(&file).expect("text");
    let part = |part: &str| match part.strip_prefix("text\n") {
        Some(block) if block.starts_with("$ ") => format!("text\n{}", run(&folder, block)),
        _ => part.to_string(),
    };
    let now: Vec<String> = text.split("```").map(part).collect();
    hold(&file, &text, &now.join("```"));
}
