//! Several programs at one image, and one whose output nobody reads.

mod folder;

use std::fs;
use std::io;
use std::path::Path;
use std::process::{Child, Command, Stdio};

use folder::folder;

const PROGRAMS: usize = 8;
const ROUNDS: usize = 20;

fn herd(folder: &Path, line: &str) -> Command {
    let mut command = Command::new(env!("CARGO_BIN_EXE_herd"));
    command.args(line.split(' ')).current_dir(folder).stdout(Stdio::piped()).stderr(Stdio::piped());
    command
}

fn list(i: usize) -> String {
    format!("tag;kg;hip;girth;gain\n03600000000000{i};400,00;128,00;183,00;0,90\n")
}

// All begun before one is waited for; gives how many had status 0.
fn together(commands: impl Iterator<Item = Command>) -> usize {
    let programs: Vec<Child> = commands.map(|mut command| command.spawn().expect("the program")).collect();
    let statuses = programs.into_iter().map(|program| program.wait_with_output().expect("an end").status);
    statuses.filter(|status| status.success()).count()
}

#[test]
fn no_add_is_lost() {
    let folder = folder("adds");
    (0..PROGRAMS).for_each(|i| fs::write(folder.join(format!("{i}.list")), list(i)).unwrap());
    for round in 0..ROUNDS {
        let image = format!("{round}.img");
        let made = herd(&folder, &format!("new {image} --order 4 --metric sum")).status().expect("the program");
        assert!(made.success());
        let reads = (0..PROGRAMS).map(|i| herd(&folder, &format!("read {image} {i}.list")));
        assert_eq!(together(reads), PROGRAMS);
        let listed = herd(&folder, &format!("list {image} --csv")).output().expect("the program").stdout;
        assert_eq!(String::from_utf8(listed).unwrap().lines().count(), 1 + PROGRAMS);
    }
    let names = fs::read_dir(folder).unwrap().map(|file| file.unwrap().file_name().into_string().unwrap());
    assert!(!names.into_iter().any(|name| name.ends_with(".herd-new")));
}

#[test]
fn one_makes_the_image() {
    let folder = folder("makers");
    for round in 0..ROUNDS {
        let new = |order| herd(&folder, &format!("new {round}.img --order {order} --metric sum"));
        assert_eq!(together((0..PROGRAMS).map(new)), 1);
        assert!(herd(&folder, &format!("check {round}.img")).status().expect("the program").success());
    }
}

// What is refused is told, and in the status, also where nobody reads the output.
#[test]
fn refused_into_a_closed_pipe() {
    let folder = folder("closed");
    fs::write(folder.join("bad.img"), [13]).unwrap();
    let mut program = herd(&folder, "check bad.img").stdin(Stdio::null()).spawn().expect("the program");
    drop(program.stdout.take());
    let output = program.wait_with_output().expect("an end");
    assert_eq!(output.status.code(), Some(1));
    assert_eq!(output.stderr, b"herd: bad.img: the image has 1 byte, and its first fields take 4\n");
}

// Nobody reads any of it: that is told in the status, and in no words.
#[test]
fn shown_into_a_closed_pipe() {
    let folder = folder("unread");
    assert!(herd(&folder, "new yard.img --order 4 --metric sum").status().expect("the program").success());
    let (reader, writer) = io::pipe().expect("a pipe");
    drop(reader);
    let output = herd(&folder, "show yard.img").stdout(writer).output().expect("the program");
    assert_eq!((output.status.code(), output.stderr), (Some(1), vec![]));
}
