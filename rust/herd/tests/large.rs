//! A list of 4,096 lines in and out again, by the program alone.

mod folder;

use std::collections::BTreeMap;
use std::fs;
use std::path::Path;
use std::process::{Command, Output};

use folder::folder;

const HEADER: &str = "tag;kg;hip;girth;gain\n";

// Any numbers, the same in each run.
struct Numbers(u64);

impl Numbers {
    fn below(&mut self, bound: u64) -> u64 {
        self.0 = self.0.wrapping_mul(6_364_136_223_846_793_005).wrapping_add(1_442_695_040_888_963_407);
        (self.0 >> 33) % bound
    }

    fn value(&mut self) -> String {
        let minus = if self.below(4) == 0 { "-" } else { "" };
        format!("{minus}{},{:02}", self.below(10_000), self.below(100))
    }
}

fn lines(count: u64) -> Vec<String> {
    let mut numbers = Numbers(41);
    // tags in no order: 4,099 is a prime, and no two of these are alike
    let tag = |i: u64| format!("{:03}{:012}", 1 + i % 999, (i * 1_009) % 4_099);
    (0..count).map(|i| format!("{};{}", tag(i), [(); 4].map(|()| numbers.value()).join(";"))).collect()
}

fn herd(folder: &Path, line: &str) -> Output {
    Command::new(env!("CARGO_BIN_EXE_herd")).args(line.split(' ')).current_dir(folder).output().expect("the program")
}

fn told(folder: &Path, line: &str) -> String {
    let output = herd(folder, line);
    assert!(output.status.success() && output.stderr.is_empty(), "{line}: {output:?}");
    String::from_utf8(output.stdout).expect("text")
}

// What `list --csv` has of a line of the list, -0,00 being 0.00.
fn csv(line: &str, day: u16) -> String {
    let (tag, values) = line.split_once(';').expect("a line");
    let values = values.replace(',', ".").replace(';', ",");
    let values: Vec<&str> = values.split(',').map(|value| if value == "-0.00" { "0.00" } else { value }).collect();
    format!("{tag},{day},{},-", values.join(","))
}

fn expected(lines: &[String], day: impl Fn(usize) -> u16) -> String {
    let by_tag: BTreeMap<&str, String> =
        lines.iter().enumerate().map(|(at, line)| (&line[..15], csv(line, day(at)))).collect();
    assert_eq!(by_tag.len(), lines.len(), "no tag twice");
    let rows: String = by_tag.values().map(|row| format!("{row}\n")).collect();
    format!("tag,day,kg,hip,girth,gain,code\n{rows}")
}

#[test]
fn in_and_out_again() {
    let (folder, lines) = (folder("large"), lines(4_096));
    let list = |lines: &[String]| HEADER.to_string() + &lines.join("\n") + "\n";
    fs::write(folder.join("whole.list"), list(&lines)).unwrap();
    told(&folder, "new whole.img --order 12 --metric worst --weights 1,2,3,100");
    assert_eq!(
        told(&folder, "read whole.img whole.list --day 65535"),
        "whole.img: 4096 added, 0 replaced, 0 refused, 4096 head now\n"
    );
    let out = told(&folder, "list whole.img --csv");
    assert_eq!(out, expected(&lines, |_| 65_535));

    // in two parts of no round size, on two days, into a herd by another metric
    let (first, second) = lines.split_at(1_501);
    fs::write(folder.join("first.list"), list(first)).unwrap();
    fs::write(folder.join("second.list"), list(second)).unwrap();
    told(&folder, "new parts.img --order 12 --metric sum");
    told(&folder, "read parts.img first.list --day 7");
    told(&folder, "read parts.img second.list");
    assert_eq!(told(&folder, "list parts.img --csv"), expected(&lines, |at| if at < 1_501 { 7 } else { 1 }));

    // what came out goes in, and in once more where it is
    fs::write(folder.join("whole.csv"), &out).unwrap();
    told(&folder, "new again.img --order 12 --metric worst --weights 1,2,3,100");
    assert_eq!(
        told(&folder, "read again.img whole.csv"),
        "again.img: 4096 added, 0 replaced, 0 refused, 4096 head now\n"
    );
    assert_eq!(told(&folder, "list again.img --csv"), out);
    let replaced = told(&folder, "read parts.img whole.csv --replace");
    assert_eq!(replaced, "parts.img: 0 added, 4096 replaced, 0 refused, 4096 head now\n");
    assert_eq!(told(&folder, "list parts.img --csv"), out);
}

// Every third line is refused, at and beside the places where the program breaks the list into parts.
#[test]
fn refused_lines_among_many() {
    let (folder, lines) = (folder("refused"), lines(2_000));
    let spoiled: Vec<String> = lines
        .iter()
        .enumerate()
        .map(|(at, line)| if at % 3 == 1 { line.replace(',', ".") } else { line.clone() })
        .collect();
    fs::write(folder.join("spoiled.list"), HEADER.to_string() + &spoiled.join("\n") + "\n").unwrap();
    told(&folder, "new some.img --order 11 --metric sum");
    let output = herd(&folder, "read some.img spoiled.list --json");
    assert_eq!(output.status.code(), Some(1));
    let told_lines: Vec<usize> = String::from_utf8(output.stdout)
        .unwrap()
        .split("\"line\":")
        .skip(1)
        .map(|rest| rest.split(',').next().unwrap().parse().unwrap())
        .collect();
    assert_eq!(told_lines, (0..2_000).filter(|at| at % 3 == 1).map(|at| at + 2).collect::<Vec<_>>());
    let kept: Vec<String> =
        lines.iter().enumerate().filter(|(at, _)| at % 3 != 1).map(|(_, line)| line.clone()).collect();
    assert_eq!(told(&folder, "list some.img --csv"), expected(&kept, |_| 1));
}
