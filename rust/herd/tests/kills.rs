//! Every command that writes, killed at any moment: what it writes is the old file or the new one, never a part of one,
//! and the same command then works, whatever the cut left behind.

mod folder;

use std::fs;
use std::path::Path;
use std::process::{Command, Stdio};
use std::thread;
use std::time::{Duration, Instant};

use folder::folder;

const HEAD: u32 = 1_000;
// Of each command: 1,010 in all.
const KILLS: u32 = 101;

// What each writes, and the command. The images have 1,000 head; yard.img is saved under name 1.
const COMMANDS: [(&str, &str); 10] = [
    ("made.img", "new made.img --order 12 --metric worst"),
    ("yard.img", "add yard.img 840000000000001 400.00 128.00 183.00 0.90 -"),
    ("yard.img", "read yard.img more.list --replace"),
    ("yard.img", "remove yard.img 036000000000001 036000000000002"),
    ("yard.img", "restore yard.img 1"),
    ("yard.img.states", "save yard.img 2"),
    ("copy.img", "copy yard.img copy.img --metric worst"),
    ("newest.img", "convert yard.img newest.img"),
    ("yard.html", "page yard.img -o yard.html"),
    ("there.html", "page yard.img -o there.html"),
];

fn herd(folder: &Path, line: &str) -> Command {
    let mut command = Command::new(env!("CARGO_BIN_EXE_herd"));
    command.args(line.split(' ')).current_dir(folder).stdout(Stdio::null()).stderr(Stdio::null());
    command
}

fn run(folder: &Path, line: &str) {
    assert!(herd(folder, line).status().expect("the program").success(), "{line}");
}

fn list(kilos: u32) -> String {
    let line = |i: u32| format!("036{i:012};{},{:02};128,00;183,00;0,90\n", kilos + i * 7 % 300, i % 100);
    format!("tag;kg;hip;girth;gain\n{}", (1..=HEAD).map(line).collect::<String>())
}

fn put(path: &Path, bytes: &Option<Vec<u8>>) {
    match bytes {
        Some(bytes) => fs::write(path, bytes).unwrap(),
        None => fs::remove_file(path).unwrap_or_default(),
    }
}

// How often the old file was there after the kill, and how often the new one.
fn killed(folder: &Path, file: &str, line: &str) -> [u32; 2] {
    let path = folder.join(file);
    let old = fs::read(&path).ok();
    let begun = Instant::now();
    run(folder, line);
    let (whole, new) = (begun.elapsed(), fs::read(&path).ok());
    assert_ne!(old, new, "{line}");
    let mut seen = [0; 2];
    for turn in 0..KILLS {
        put(&path, &old);
        let mut program = herd(folder, line).spawn().expect("the program");
        // from the beginning to some time behind the end, in no regular steps
        thread::sleep(whole * (turn * 37 % KILLS) / (KILLS * 2 / 3) + Duration::from_micros(u64::from(turn)));
        program.kill().expect("it is ours");
        program.wait().expect("an end");
        let found = fs::read(&path).ok();
        assert!(found == old || found == new, "{line}: neither the old file nor the new one");
        seen[usize::from(found == new)] += 1;
        put(&path, &old);
        run(folder, line);
        assert_eq!(fs::read(&path).ok(), new, "{line}: after a kill");
    }
    let names = fs::read_dir(folder).unwrap().map(|file| file.unwrap().file_name().into_string().unwrap());
    assert!(names.into_iter().all(|name| !name.ends_with(".herd-new")), "{line}: a leftover");
    seen
}

#[test]
fn old_or_new() {
    let folder = folder("kills");
    fs::write(folder.join("yard.list"), list(400)).unwrap();
    fs::write(folder.join("more.list"), list(420)).unwrap();
    run(&folder, "new yard.img --order 10 --metric sum");
    run(&folder, "save yard.img 1");
    run(&folder, "page yard.img -o there.html");
    run(&folder, "read yard.img yard.list");
    let image = fs::read(folder.join("yard.img")).unwrap();
    let mut seen = [0; 2];
    for (file, line) in COMMANDS {
        fs::write(folder.join("yard.img"), &image).unwrap();
        let [old, new] = killed(&folder, file, line);
        seen = [seen[0] + old, seen[1] + new];
        println!("{line}: the old file {old} times, the new one {new} times");
    }
    assert!(seen[0] > 0 && seen[1] > 0, "no kill came before the end, or none behind it: {seen:?}");
}
