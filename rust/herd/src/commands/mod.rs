//! The commands, with their help.

mod add;
mod check;
mod convert;
mod copy;
mod dues;
mod get;
mod list;
mod lots;
mod new;
mod page;
mod read;
mod remove;
mod search;
mod show;
mod states;

use std::ffi::OsString;

use crate::args::{Args, Flag, flag, misuse, value};
use crate::calendar::DAY_ONE;
use crate::file;
use crate::report::{Failure, Outcome, Report};

/// A command.
struct Command {
    name: &'static str,
    /// What follows its name.
    usage: &'static str,
    /// What it does, in a line.
    about: &'static str,
    /// What a user has to know beside it.
    details: &'static str,
    example: &'static str,
    options: &'static [Flag],
    /// How many plain words it takes, at least and at most.
    words: (usize, usize),
    run: fn(&Args) -> Outcome,
}

const JSON: Flag = flag("--json");
const MANY: usize = usize::MAX;

const COMMANDS: [Command; 18] = [
    Command {
        name: "new",
        usage: "IMAGE (--head N | --order 0..12) --metric sum|bits|worst [--weights KG,HIP,GIRTH,GAIN]",
        about: "make an image of a herd without head",
        details: "A herd has room for N head, up to 4096; by its order T it is 2^T. The metric is how far two\n\
                  head are apart:\n\
                  sum    the differences of the four measures added up, in hundredths\n\
                  bits   the number of bits in which their coat codes differ\n\
                  worst  the largest of the differences, in hundredths\n\
                  Each difference is multiplied by the weight of its measure first, 0 to 100, and 1\n\
                  where no weights are given. A file that is there already is left as it is.",
        example: "herd new yard.img --head 300 --metric sum --weights 3,1,1,1",
        options: &[value("--head"), value("--order"), value("--metric"), value("--weights"), JSON],
        words: (1, 1),
        run: new::run,
    },
    Command {
        name: "add",
        usage: "IMAGE TAG PROFILE [--day DAY] [--replace]",
        about: "add one head, with its coat code",
        details: "A profile is four measures with two digits behind a point, such as -0.95, and a coat code\n\
                  of 32 lowercase hex digits or -. It was weighed on day 1 where none is given. With\n\
                  --replace a head that is in the herd is weighed again.",
        example: "herd add yard.img 036000000000101 412.50 129.00 185.00 0.95 - --day 412",
        options: &[value("--day"), flag("--replace"), DAY_ONE, JSON],
        words: (3, 7),
        run: add::run,
    },
    Command {
        name: "read",
        usage: "IMAGE (LIST | -) [--day DAY] [--replace] [--all-or-nothing]",
        about: "add a herd list, of a scale head or as list --csv writes it",
        details: "All head of a scale head's list were weighed on the day, 1 where none is given; a list that\n\
                  list --csv wrote has the day and the coat code of each head. With --replace a head that is\n\
                  in the herd is weighed again. Each line that is refused is told, up to ten of them one by\n\
                  one, and the others are read; with --all-or-nothing the image is left as it is then. Under\n\
                  another header, and behind a line for which there is no room, nothing is read. What a\n\
                  spreadsheet adds (a byte order mark, carriage returns) is put right, and that is said.",
        example: "herd read yard.img monday.list --day 412 --replace",
        options: &[value("--day"), flag("--replace"), flag("--all-or-nothing"), DAY_ONE, JSON],
        words: (2, 2),
        run: read::run,
    },
    Command {
        name: "list",
        usage: "IMAGE [--csv]",
        about: "the live head by tag: day, measures and coat code",
        details: "A coat code of zeros is written as -. With --csv fields are parted by commas, as read takes\n\
                  them.",
        example: "herd list yard.img --csv > yard.csv",
        options: &[flag("--csv"), DAY_ONE, JSON],
        words: (1, 1),
        run: list::run,
    },
    Command {
        name: "get",
        usage: "IMAGE (TAG.. | -)",
        about: "one head, or some: day, measures and coat code",
        details: "With - the tags are read from standard input, parted by spaces or lines.",
        example: "herd get yard.img 036000000000101",
        options: &[DAY_ONE, JSON],
        words: (2, MANY),
        run: get::run,
    },
    Command {
        name: "check",
        usage: "IMAGE",
        about: "whether an image is accepted, or which rule is broken and where",
        details: "Of a refused image: the rule with its number in docs/RULES.md, the slot, the bucket and\n\
                  the field where there is one, its bytes, and the bytes around them. Where several rules\n\
                  are broken, the first that a load tests is told. Accepted does not mean that no byte was\n\
                  changed: an image has no checksum, and sha256sum beside a copy is one.",
        example: "herd check yard.img",
        options: &[JSON],
        words: (1, 1),
        run: check::run,
    },
    Command {
        name: "show",
        usage: "IMAGE",
        about: "form, order, metric and weights, and a line for each bucket",
        details: "Of a bucket: how many slots it has room for, how many were built, of these the live and\n\
                  the dead ones. Its bar has # for live slots, x for dead ones and . for room that is left;\n\
                  a wide bucket has a character for several slots.",
        example: "herd show yard.img",
        options: &[JSON],
        words: (1, 1),
        run: show::run,
    },
    Command {
        name: "range",
        usage: "IMAGE RADIUS (TAG.. | - | PROFILE) [--since DAY]",
        about: "all head within a distance of one or some, or of a profile",
        details: "A radius is a whole number in units of distance: hundredths by the metrics sum and worst,\n\
                  bits by bits; 10.00 is 1000 hundredths. A profile is four measures with two digits behind a\n\
                  point, such as -0.95, and a coat code of 32 lowercase hex digits or -. With - the tags are\n\
                  read from standard input. With --since only head weighed on that day or later are found.",
        example: "herd range yard.img 5.00 036000000000101 --since 300",
        options: &[value("--since"), DAY_ONE, JSON],
        words: (3, MANY),
        run: search::range,
    },
    Command {
        name: "nearest",
        usage: "IMAGE K (TAG.. | - | PROFILE) [--since DAY]",
        about: "the K head nearest to one or some, or to a profile",
        details: "The nearest first, of equally near ones the lower tag; K counts from 1. A profile is four\n\
                  measures with two digits behind a point, such as -0.95, and a coat code of 32 lowercase hex\n\
                  digits or -. With - the tags are read from standard input. With --since only head weighed\n\
                  on that day or later are found.",
        example: "herd nearest yard.img 3 412.50 129.00 185.00 0.95 -",
        options: &[value("--since"), DAY_ONE, JSON],
        words: (3, MANY),
        run: search::nearest,
    },
    Command {
        name: "remove",
        usage: "IMAGE (TAG.. | -)",
        about: "remove head",
        details: "All of them or none: where one is not in the herd, the image is left as it is. With - the\n\
                  tags are read from standard input.",
        example: "herd remove yard.img 036000000000101 036000000000104",
        options: &[JSON],
        words: (2, MANY),
        run: remove::run,
    },
    Command {
        name: "dues",
        usage: "IMAGE (TAG.. | -)",
        about: "what head pay at the gate, each and in all",
        details: "With - the tags are read from standard input, parted by spaces or lines, up to 4096 of\n\
                  them. A tag that is there twice pays twice.",
        example: "herd dues yard.img 036000000000101 036000000000104",
        options: &[JSON],
        words: (2, MANY),
        run: dues::run,
    },
    Command {
        name: "lots",
        usage: "IMAGE RADIUS.. [--list N]",
        about: "how each radius would draft the herd into lots",
        details: "1 to 32 radii, as range takes them. The head of the lowest tag that is in no lot yet leads\n\
                  one, of itself and of every other in no lot yet within the radius of it, and so on. With\n\
                  --list the lots by the N-th radius are listed too, each with its leader first.",
        example: "herd lots yard.img 500 1000 2000 --list 2",
        options: &[value("--list"), JSON],
        words: (2, MANY),
        run: lots::run,
    },
    Command {
        name: "save",
        usage: "IMAGE NAME",
        about: "keep the herd as it is under a name, 1 to 8",
        details: "What was kept under the name before is replaced. All names are kept in the file\n\
                  IMAGE.states.",
        example: "herd save yard.img 1",
        options: &[JSON],
        words: (2, 2),
        run: states::save,
    },
    Command {
        name: "restore",
        usage: "IMAGE NAME",
        about: "come back to the herd that is kept under a name",
        details: "The image is replaced by what was kept, removed head that guide searches included. Where\n\
                  it is not there any more, it is made.",
        example: "herd restore yard.img 1",
        options: &[JSON],
        words: (2, 2),
        run: states::restore,
    },
    Command {
        name: "states",
        usage: "IMAGE",
        about: "the names under which the herd is kept",
        details: "Of each: head, order and metric.",
        example: "herd states yard.img",
        options: &[JSON],
        words: (1, 1),
        run: states::list_all,
    },
    Command {
        name: "copy",
        usage: "OLD NEW [--head N | --order 0..12] [--metric sum|bits|worst] [--weights KG,HIP,GIRTH,GAIN]",
        about: "the same head, with their days, by another order, metric or weights",
        details: "The new herd is built anew, by the order, metric and weights of OLD where none are given.\n\
                  A file that is there already is left as it is.",
        example: "herd copy yard.img worst.img --metric worst",
        options: &[value("--head"), value("--order"), value("--metric"), value("--weights"), JSON],
        words: (2, 2),
        run: copy::run,
    },
    Command {
        name: "convert",
        usage: "OLD NEW",
        about: "write an image of an older form in the newest",
        details: "NEW may be OLD, which is then replaced; another file that is there is left as it is.",
        example: "herd convert 2024.img yard.img",
        options: &[JSON],
        words: (2, 2),
        run: convert::run,
    },
    Command {
        name: "page",
        usage: "[IMAGE] -o FILE.html",
        about: "write a page with the herd and the proved calls in it, for a browser or a phone",
        details: "One file that needs no network and nothing beside it: lots by a radius, searches, head added,\n\
                  weighed again and removed, lists read, images opened and saved, lots on paper. Without IMAGE\n\
                  it opens or starts a herd itself. A page that this command wrote is replaced; another file\n\
                  that is there is left as it is.",
        example: "herd page yard.img -o yard.html",
        options: &[value("-o"), DAY_ONE],
        words: (0, 1),
        run: page::run,
    },
];

/// Does what the words say.
pub fn run(words: Vec<OsString>) -> Outcome {
    let Some((name, rest)) = words.split_first() else {
        return misuse("no command is given; herd --help shows them all");
    };
    let asked = |word: &OsString| word == "--help" || word == "-h";
    match name.to_str() {
        Some("help") if !rest.is_empty() => return run([&rest[..1], &["--help".into()]].concat()),
        Some("help" | "--help" | "-h") => return Ok(overview().into()),
        Some("--version" | "-V") => return Ok(format!("herd {}\n", env!("CARGO_PKG_VERSION")).into()),
        _ => {}
    }
    let Some(command) = COMMANDS.iter().find(|command| name == command.name) else {
        return misuse(format!("there is no command `{}`; herd --help shows them all", file::shown(name)));
    };
    if rest.iter().take_while(|word| *word != "--").any(asked) {
        return Ok(command.help().into());
    }
    command.run(rest).map_err(|failure| command.with_remedy(failure))
}

impl Command {
    fn run(&self, words: &[OsString]) -> Outcome {
        let args = Args::sort(words, self.options)?;
        let (least, most) = self.words;
        if !(least..=most).contains(&args.plain.len()) {
            return misuse(format!("{} takes {}", self.name, self.usage));
        }
        (self.run)(&args)
    }

    fn with_remedy(&self, failure: Failure) -> Failure {
        match failure {
            Failure::Misuse(sentence) => Failure::Misuse(format!("{sentence}; herd {} --help shows how", self.name)),
            refused => refused,
        }
    }

    fn help(&self) -> String {
        let Command { name, usage, about, details, example, .. } = self;
        let json = if self.options.iter().any(|option| option.name == JSON.name) { " [--json]" } else { "" };
        format!("herd {name} {usage}{json}\n\n{about}\n\n{details}\n\nexample:\n  {example}\n")
    }
}

fn overview() -> String {
    let line = |command: &Command| format!("  {:<9}{}\n", command.name, command.about);
    let lines: String = COMMANDS.iter().map(line).collect();
    format!(
        "usage: herd COMMAND ..\n\n{lines}\n\
         herd help COMMAND tells more, with an example. Every command but page takes --json. A day is a\n\
         number from 1; where HERD_DAY_ONE or --day-one names the date of day 1, such as 2026-01-01, it is\n\
         a date too, or the word today.\n"
    )
}

// A report as JSON if that was asked for.
fn told(args: &Args, text: impl FnOnce() -> String, json: impl FnOnce() -> crate::json::Json) -> Report {
    if args.has(JSON.name) { format!("{}\n", json()).into() } else { text().into() }
}
