//! What is said of a herd list that is refused.

use vpindex::{Day, ListFault, ListRefusal, Metric, Order, Refusal, Table};

const HEADER: &str = "tag;kg;hip;girth;gain\n";
const FIRST: &str = "036000000000001;412,50;129,00;185,00;0,95\n";
const SECOND: &str = "036000000000002;398,00;127,00;-181,00;0,90\n";

fn refused(list: &[u8]) -> ListRefusal {
    let mut table = Table::new(Order::new(2).expect("valid"), Metric::SumOfDifferences);
    table.read_list(list, Day::MIN).expect_err("it is refused")
}

// of a list with one line, then this, then another line
fn third(line: &str) -> String {
    refused([HEADER, FIRST, line, SECOND].concat().as_bytes()).to_string()
}

#[test]
fn headers() {
    let said = |list: &[u8]| refused(list).to_string();
    let mark = "line 1: a byte order mark stands before the header (0 added before it)";
    assert_eq!(said([b"\xEF\xBB\xBF", HEADER.as_bytes()].concat().as_slice()), mark);
    assert_eq!(said(b"\xFF\xFEt\0a\0g\0"), mark);
    assert_eq!(said(b"tag;kg;hip;girth;gain\r\n"), "line 1 ends in a carriage return (0 added before it)");
    assert_eq!(said(b"tag;kg;hip;girth;gain\r0360"), "line 1 ends in a carriage return (0 added before it)");
    assert_eq!(said(b"tag;kg;hip;girth;gain"), "line 1: the last line has no line feed (0 added before it)");
    assert_eq!(said(b""), "line 1: nothing stands where `tag;kg;hip;girth;gain` belongs (0 added before it)");
    assert_eq!(said(b"\n"), "line 1: nothing stands where `tag;kg;hip;girth;gain` belongs (0 added before it)");
    assert_eq!(
        said(b"Tag;kg;\"hip\";girth;gain\n"),
        "line 1: `Tag;kg;\"hip\";girth;gain` stands where `tag;kg;hip;girth;gain` belongs (0 added before it)"
    );
    assert_eq!(
        said(FIRST.as_bytes()),
        "line 1: `036000000000001;412,50;129,00;185,00;0,9…` stands where `tag;kg;hip;girth;gain` belongs (0 added \
         before it)"
    );
    assert_eq!(
        said(b"\x1b[31mtag\xff"),
        "line 1: `\\u{1b}[31mtag\u{fffd}` stands where `tag;kg;hip;girth;gain` belongs (0 added before it)"
    );
}

#[test]
fn lines() {
    for (line, expected) in [
        ("\n", "line 3 is empty"),
        ("\r\n", "line 3 ends in a carriage return"),
        ("036000000000003;412,50;129,00;185,00;0,95\r\n", "line 3 ends in a carriage return"),
        ("036000000000003\n", "line 3 has 1 field, and 5 belong there"),
        ("036000000000003;412,50;129,00;185,00\n", "line 3 has 4 fields, and 5 belong there"),
        ("036000000000003;412,50;129,00;185,00;0,95;\n", "line 3 has 6 fields, and 5 belong there"),
        ("036000000000003 412,50 129,00 185,00 0,95\n", "line 3 has 1 field, and 5 belong there"),
    ] {
        assert_eq!(third(line), format!("{expected} (1 added before it)"));
    }
    let last = |list: &str| refused([HEADER, FIRST, list].concat().as_bytes()).to_string();
    let unended = "line 3: the last line has no line feed (1 added before it)";
    assert_eq!(last(SECOND.trim_end()), unended);
    assert_eq!(last("0360"), unended);
    assert_eq!(last("036000000000003;412,50\r"), "line 3 ends in a carriage return (1 added before it)");
}

#[test]
fn fields() {
    let tag = |text: &str| third(&format!("{text};412,50;129,00;185,00;0,95\n"));
    for (text, words) in [
        ("36000000000003", "`36000000000003` has 14 digits, and a tag has 15"),
        ("3", "`3` has 1 digit, and a tag has 15"),
        ("036 00000000003", "`036 00000000003` has a space, which does not belong there"),
        ("0360000000000O3", "`0360000000000O3` has `O`, which does not belong there"),
        ("000000000000003", "`000000000000003` has country 000"),
        ("036274877906944", "`036274877906944` has a national number above 274877906943"),
        ("036000000000001", "`036000000000001` is in the table already"),
    ] {
        assert_eq!(tag(text), format!("line 3, field 1: {words} (1 added before it)"));
    }
    assert_eq!(tag(""), "line 3, field 1 is empty (1 added before it)");

    for at in 1..5 {
        let value = |text: &str| {
            let mut fields = ["036000000000003", "412,50", "129,00", "-185,00", "0,95"];
            fields[at] = text;
            third(&(fields.join(";") + "\n"))
        };
        for (text, words) in [
            ("412.50", "`412.50` has a point where a comma belongs"),
            (".50", "`.50` has a point where a comma belongs"),
            ("412", "`412` has no comma with 2 digits after it"),
            ("-", "`-` has no digits"),
            (",50", "`,50` has no digit before its comma"),
            ("412,5", "`412,5` has 1 digit after its comma, and 2 belong there"),
            ("412,", "`412,` has 0 digits after its comma, and 2 belong there"),
            ("412,500", "`412,500` has 3 digits after its comma, and 2 belong there"),
            ("000412,50", "`000412,50` has 6 digits before its comma, and at most 5 belong there"),
            ("1.412,50", "`1.412,50` has a point where a comma belongs"),
            ("+412,50", "`+412,50` has `+`, which does not belong there"),
            ("--1,00", "`--1,00` has `-`, which does not belong there"),
            (" 412,50", "` 412,50` has a space, which does not belong there"),
            ("412,50 ", "`412,50 ` has a space, which does not belong there"),
            ("412,50,", "`412,50,` has `,`, which does not belong there"),
            ("412,5\t", "`412,5\\t` has a tab, which does not belong there"),
            ("412,5\r", "`412,5\\r` has a carriage return, which does not belong there"),
            ("\u{b9},00", "`\u{b9},00` has the byte 0xc2, which does not belong there"),
            ("10000,01", "`10000,01` is above 10000,00"),
            ("-99999,99", "`-99999,99` is below -10000,00"),
        ] {
            // at the end of a line it is the line that ends so
            if !(at == 4 && text.ends_with('\r')) {
                assert_eq!(value(text), format!("line 3, field {}: {words} (1 added before it)", at + 1));
            }
        }
        assert_eq!(value(""), format!("line 3, field {} is empty (1 added before it)", at + 1));
    }
}

// The first field that is wrong, and of that the first thing that is.
#[test]
fn the_first_of_several() {
    assert_eq!(
        third("036000000000003;412,50;129.00;x;\n"),
        "line 3, field 3: `129.00` has a point where a comma belongs (1 added before it)"
    );
    assert_eq!(
        third("36000000000003;412.50;129,00;185,00;0,95\n"),
        "line 3, field 1: `36000000000003` has 14 digits, and a tag has 15 (1 added before it)"
    );
    assert_eq!(
        third("036000000000003;10000,00;-10000,01;10000,01;0,95\n"),
        "line 3, field 3: `-10000,01` is below -10000,00 (1 added before it)"
    );
}

// What the text does not show is said as the archive says it.
#[test]
fn a_line_that_is_in_order() {
    let mut table = Table::new(Order::MIN, Metric::SumOfDifferences);
    let full = table.read_list([HEADER, FIRST, SECOND].concat().as_bytes(), Day::MIN).expect_err("no room");
    assert_eq!((full.refusal, &full.fault), (Refusal::Full, &None));
    assert_eq!(full.to_string(), "line 3: the table holds as many items as its order allows (1 added before it)");
}

fn read(list: &[u8]) -> Result<u32, ListRefusal> {
    let mut table = Table::new(Order::new(2).expect("valid"), Metric::SumOfDifferences);
    table.read_list(list, Day::MIN).map(|read| read.added)
}

// The list with another field there, one that is in order.
fn mended(list: &[u8], line: u32, field: u32) -> Vec<u8> {
    let mut lines: Vec<Vec<&[u8]>> =
        list.split(|&b| b == b'\n').map(|line| line.split(|&b| b == b';').collect()).collect();
    lines[line as usize - 1][field as usize - 1] = if field == 1 { b"036000000000003" } else { b"0,00" };
    lines.iter().map(|fields| fields.join(&b';')).collect::<Vec<_>>().join(&b'\n')
}

// Every list with one byte taken out, put in or replaced: whatever the archive refuses for its form has a fault here, what
// it refuses for a value has a field, and once the field that is named is mended nothing is wrong any more.
#[test]
fn a_fault_for_every_refusal() {
    let list = [HEADER, FIRST, SECOND].concat().into_bytes();
    let mut met = [0; 5];
    let mut try_one = |changed: &[u8]| {
        let Err(refused) = read(changed) else {
            met[0] += 1;
            return;
        };
        assert_eq!(refused.refusal == Refusal::BadListHeader, refused.line == 1);
        let Some(fault) = &refused.fault else { panic!("no fault: {refused}: {}", changed.escape_ascii()) };
        match (refused.refusal, fault) {
            (Refusal::BadListHeader, ListFault::Field { .. }) => panic!("a field of the header: {refused}"),
            (Refusal::BadListHeader, _) => met[1] += 1,
            (Refusal::BadListLine, ListFault::NoLineFeed) => assert!(!changed.ends_with(b"\n")),
            (Refusal::BadListLine, ListFault::Field { .. }) => met[2] += 1,
            (Refusal::BadListLine, _) => met[3] += 1,
            (_, ListFault::Field { .. }) => met[4] += 1,
            _ => panic!("{refused}: {}", changed.escape_ascii()),
        }
        let lines = changed.iter().filter(|&&byte| byte == b'\n').count();
        if let ListFault::Field { field, .. } = fault
            && lines == 3
        {
            assert_eq!(read(&mended(changed, refused.line, *field)), Ok(2), "{refused}: {}", changed.escape_ascii());
        }
    };
    for at in 0..list.len() {
        try_one(&list[..at]);
        try_one(&[&list[..at], &list[at + 1..]].concat());
        for byte in 0..=255 {
            try_one(&[&list[..at], &[byte], &list[at..]].concat());
            try_one(&[&list[..at], &[byte], &list[at + 1..]].concat());
        }
    }
    assert!(met.iter().all(|&count| count > 10), "{met:?}");
}
