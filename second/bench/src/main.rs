//! Times jointrise and the second program on the same tables, in one run, and prints ratios: how many times longer the second program takes, and how the cost of
//! each grows with the links. With a path as its argument it writes them to that file too.
//!
//! The second program is timed in a process of its own, so that it can be stopped when it takes too long.

use compare::random::Random;
use compare::tables::{self, Table};
use std::fmt::Write as _;
use std::hint::black_box;
use std::process::{Command, ExitCode, Stdio};
use std::time::{Duration, Instant};

/// The most rows lent: one row more than there are groups, unless that is more than this.
const MOST_ROWS: usize = 1 << 14;

/// Rows that the listing program has.
const FEW_ROWS: usize = 2048;

/// How long the second program may take for one call.
const PATIENCE: Duration = Duration::from_secs(60);

/// How long calls are repeated for one number.
const ENOUGH: Duration = Duration::from_millis(300);

struct Kind {
    name: &'static str,
    most_rows: usize,
    /// The table with about so many links.
    table: fn(u32) -> Table,
    sizes: &'static [u32],
}

const SIZES: &[u32] = &[256, 512, 1024, 2048];

const KINDS: &[Kind] = &[
    Kind {
        name: "complete graph over one span",
        most_rows: MOST_ROWS,
        table: |links| {
            let gauges = (2..=64).take_while(|g| g * (g - 1) / 2 <= links).last();
            tables::complete(gauges.unwrap_or(2))
        },
        sizes: SIZES,
    },
    Kind {
        name: "all begins and ends different",
        most_rows: MOST_ROWS,
        table: |links| tables::all_different(links, &mut Random::new(1)),
        sizes: SIZES,
    },
    Kind {
        name: "river-like season",
        most_rows: MOST_ROWS,
        table: |links| tables::season(links, &mut Random::new(1)),
        sizes: SIZES,
    },
    Kind {
        name: "river-like season, links by begin",
        most_rows: MOST_ROWS,
        table: |links| tables::by_begin(tables::season(links, &mut Random::new(1))),
        sizes: SIZES,
    },
    Kind {
        name: "many short links",
        most_rows: MOST_ROWS,
        table: |links| tables::short(links, &mut Random::new(1)),
        sizes: SIZES,
    },
    Kind {
        name: "links of one pair",
        most_rows: MOST_ROWS,
        table: |links| tables::one_pair(links, 2, &mut Random::new(1)),
        sizes: SIZES,
    },
    Kind {
        name: "all begins and ends different, in 2,048 rows",
        most_rows: FEW_ROWS,
        table: |links| tables::all_different(links, &mut Random::new(1)),
        sizes: &[2048],
    },
    Kind {
        name: "21 threes of gauges (3^21 groups), in 2,048 rows",
        most_rows: FEW_ROWS,
        table: |_| tables::threes(21),
        sizes: &[1890],
    },
];

/// The shortest of as many calls as fit into the time.
fn shortest(mut call: impl FnMut() -> Duration) -> Duration {
    let until = Instant::now() + ENOUGH;
    let mut best = call();
    while Instant::now() < until {
        best = best.min(call());
    }
    best
}

fn time_jointrise(table: &Table, rows: usize) -> Duration {
    let mut buffer = vec![0; 3 * rows];
    shortest(|| {
        buffer.fill(0);
        let start = Instant::now();
        let reply = jointrise::list(black_box(&table.numbers), table.gauges, &mut buffer);
        let time = start.elapsed();
        let _ = black_box(reply);
        time
    })
}

/// The number of groups, or that they are too many; and the rows to lend.
fn rows_of(table: &Table, most: usize) -> Result<(Option<usize>, usize), String> {
    match jointrise::list(&table.numbers, table.gauges, &mut vec![0; 3 * most]) {
        Ok(count) => Ok((Some(count), most.min(count + 1))),
        Err(refusal) if refusal.reason == 9 => Ok((None, most)),
        Err(refusal) => Err(refusal.to_string()),
    }
}

/// Run in a process of its own: prints the nanoseconds of the shortest call.
fn time_plain(kind: &Kind, links: u32, rows: usize) {
    let table = (kind.table)(links);
    let buffer = vec![0; 3 * rows];
    let time = shortest(|| {
        let start = Instant::now();
        let reply = plain::list(black_box(&table.numbers), table.gauges, &buffer);
        let time = start.elapsed();
        let _ = black_box(reply);
        time
    });
    println!("{}", time.as_nanos());
}

/// The second program's time, or none if it takes longer than the patience.
fn plain_time(kind: usize, links: u32, rows: usize) -> Result<Option<Duration>, String> {
    let program = std::env::current_exe().map_err(|e| e.to_string())?;
    let mut child = Command::new(program)
        .arg("--plain")
        .args([kind.to_string(), links.to_string(), rows.to_string()])
        .stdout(Stdio::piped())
        .spawn()
        .map_err(|e| e.to_string())?;
    let until = Instant::now() + PATIENCE + ENOUGH;
    while child.try_wait().map_err(|e| e.to_string())?.is_none() {
        if Instant::now() > until {
            child.kill().map_err(|e| e.to_string())?;
            child.wait().map_err(|e| e.to_string())?;
            return Ok(None);
        }
        std::thread::sleep(Duration::from_millis(5));
    }
    let output = child.wait_with_output().map_err(|e| e.to_string())?;
    let text = String::from_utf8_lossy(&output.stdout);
    let nanos = text
        .trim()
        .parse()
        .map_err(|_| "the second program failed")?;
    Ok(Some(Duration::from_nanos(nanos)))
}

/// A ratio with two digits that count.
fn ratio(a: Duration, b: Duration) -> String {
    let r = a.as_secs_f64() / b.as_secs_f64();
    let text = if r < 9.95 {
        format!("{r:.1}")
    } else {
        let scale = 10f64.powi(r.log10().floor() as i32 - 1);
        format!("{:.0}", (r / scale).round() * scale)
    };
    with_commas(&text)
}

fn with_commas(text: &str) -> String {
    let (whole, rest) = text
        .split_once('.')
        .map_or((text, String::new()), |(w, r)| (w, format!(".{r}")));
    let mut out = String::new();
    for (i, c) in whole.chars().enumerate() {
        if i > 0 && (whole.len() - i).is_multiple_of(3) {
            out.push(',');
        }
        out.push(c);
    }
    out + &rest
}

const HEAD: &str = "\
# Benchmarks

Written by the program `second/bench`; nothing on this page is typed by hand. To write it anew, from the project's folder:

    bash .ci/library
    cd second && cargo run --release -p bench -- ../docs/BENCHMARKS.md

jointrise's `list` and the second program's, both built for release, on the same tables, in one run, each with cleared rows, one more than there are groups; each number is
from the shortest of the calls that fit into a third of a second, of one call at least. Times depend on the machine and are left out: the page has
ratios alone. They are those of the last run on an x86-64 machine; what a landing since then did to the list's time is in its note in docs/landings/.

- *ratio*: how many times longer the second program takes. It is plain, written to be obviously right: it looks at every span from a begin to an end of a link. So
  the ratio says how far jointrise is from a plain search, and nothing about any other program.
- *growth*: how many times longer the call takes than with the first table of its kind.
- A `>` stands where the second program was stopped after a minute. *Too many* groups are more than 16,384, or than the rows named.

";

const FOOT: &str = "
What is listed: *complete graph*, all pairs of 23, 32, 45 and 64 gauges over one span, the last being the run that document 01 times. *All begins and ends
different*: no two links begin, and no two end, at the same hour, and most of them overlap. *River-like season*: storms on a tree of 64 gauges; a storm reaches
a path of them, one after another, and gauges that rise at the same time are linked. *Many short links*: an hour to three, of any two of 64 gauges. *Links of one pair*:
the worst for the check of a table, which compares links of the same pair. Unless said, the links stand in no order. Where the groups are too many, the call ends with
reason 9 at the first group too many.
";

fn measured() -> Result<String, String> {
    let mut text = String::from(
        "| table | links | groups | ratio | growth of jointrise | growth of the second program |\n|---|---|---|---|---|---|\n",
    );
    for (number, kind) in KINDS.iter().enumerate() {
        let mut first = None;
        for &size in kind.sizes {
            let table = (kind.table)(size);
            let links = table.numbers.len() / 4;
            let (groups, rows) = rows_of(&table, kind.most_rows)?;
            let ours = time_jointrise(&table, rows);
            let theirs = plain_time(number, size, rows)?;
            let (ours_first, theirs_first) = *first.get_or_insert((ours, theirs));
            let groups = groups.map_or("too many".into(), |count| with_commas(&count.to_string()));
            let by = match theirs {
                Some(time) => ratio(time, ours),
                None => format!("> {}", ratio(PATIENCE, ours)),
            };
            let theirs_growth = match (theirs, theirs_first) {
                (Some(time), Some(before)) => ratio(time, before),
                (None, Some(before)) => format!("> {}", ratio(PATIENCE, before)),
                _ => "-".into(),
            };
            let row = format!(
                "| {} | {} | {groups} | {by} | {} | {theirs_growth} |\n",
                kind.name,
                with_commas(&links.to_string()),
                ratio(ours, ours_first),
            );
            print!("{row}");
            write!(text, "{row}").map_err(|e| e.to_string())?;
        }
    }
    Ok(text)
}

fn main() -> ExitCode {
    let words: Vec<String> = std::env::args().skip(1).collect();
    if let [word, kind, links, rows] = &words[..]
        && word == "--plain"
        && let (Ok(kind), Ok(links), Ok(rows)) =
            (kind.parse::<usize>(), links.parse(), rows.parse())
        && let Some(kind) = KINDS.get(kind)
    {
        time_plain(kind, links, rows);
        return ExitCode::SUCCESS;
    }
    let done = measured().and_then(|table| match words.first() {
        Some(path) => {
            std::fs::write(path, [HEAD, &table, FOOT].concat()).map_err(|e| e.to_string())
        }
        None => Ok(()),
    });
    match done {
        Ok(()) => ExitCode::SUCCESS,
        Err(fault) => {
            eprintln!("bench: {fault}");
            ExitCode::FAILURE
        }
    }
}
