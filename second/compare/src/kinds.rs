//! The kinds of cases.

use crate::case::Case;
use crate::files::{cut, damaged, exchanged, spoilt};
use crate::lent::{Fill, Lent};
use crate::random::Random;
use crate::run::{Run, Stop};
use crate::tables::{self, Table};

type Done = Result<(), Box<Stop>>;

impl Table {
    fn check(&self) -> Case {
        Case::Check {
            numbers: self.numbers.clone(),
            gauges: self.gauges,
        }
    }

    fn list(&self, rows: Lent) -> Case {
        Case::List {
            numbers: self.numbers.clone(),
            gauges: self.gauges,
            rows,
        }
    }

    fn ask(&self, members: u64, begin: u64, end: u64) -> Case {
        Case::Ask {
            numbers: self.numbers.clone(),
            gauges: self.gauges,
            members,
            begin,
            end,
        }
    }

    fn write(&self, bytes: Lent) -> Case {
        Case::Write {
            numbers: self.numbers.clone(),
            gauges: self.gauges,
            bytes,
        }
    }

    fn file(&self) -> Vec<u8> {
        plain::file_of(&self.numbers, self.gauges)
    }

    fn links(&self) -> usize {
        self.numbers.len() / 4
    }
}

fn read(bytes: &[u8], numbers: usize) -> Case {
    Case::Read {
        bytes: bytes.to_vec(),
        numbers: Lent::garbage(numbers),
    }
}

fn listing(input: &[u8], out: usize) -> Case {
    Case::Listing {
        input: input.to_vec(),
        out: Lent::garbage(out),
    }
}

fn fill(random: &mut Random) -> Fill {
    *random.pick(&[
        Fill::Garbage,
        Fill::Garbage,
        Fill::Zeros,
        Fill::Ones,
        Fill::Small,
    ])
}

/// Every kind, once over.
pub fn all(run: &mut Run, random: &mut Random) -> Done {
    tiny(run, random)?;
    two_links(run)?;
    file_cases(run, random)?;
    all_listings(run, random)?;
    refusals(run, random)?;
    large(run, random)?;
    every_question(run, random)?;
    random_tables(run, random)
}

/// Tables on which the second program takes seconds or minutes, with room enough.
pub fn long(run: &mut Run, random: &mut Random) -> Done {
    run.kind("the largest tables, with room enough");
    for table in heavy(random) {
        of_large(run, &table, &[6144, 6145, 12_290])?;
    }
    Ok(())
}

/// The kinds that differ from seed to seed.
pub fn again(run: &mut Run, random: &mut Random) -> Done {
    random_tables(run, random)?;
    refusals(run, random)?;
    spoilt_files(run, random, 2000)?;
    run.kind("large random tables, with room enough");
    let links = random.between(200, 500);
    for table in [
        tables::all_different(links, random),
        tables::scattered(64, 1000, 2 * links, random),
        tables::season(4 * links, random),
        tables::short(4 * links, random),
        tables::dense(20, 30, 9, 3, random),
    ] {
        of_large(run, &table, &[6144, 6145, 60_000])?;
    }
    Ok(())
}

/// Every table of three gauges over three hours, with every room and every question.
fn tiny(run: &mut Run, random: &mut Random) -> Done {
    for table in tables::all_of_three(3, random) {
        let links = plain::check(&table.numbers, 3).expect("made to be accepted");
        let groups = plain::groups_by_hours(&links, 3, 3);
        assert_eq!(groups, plain::groups_by_sets(&links, 3));
        assert_eq!(
            Some(&groups),
            plain::groups_by_search(&links, groups.len()).as_ref()
        );
        run.kind("all tables of 3 gauges over 3 hours: check, every room");
        run.case(table.check())?;
        every_room(run, &table, groups.len())?;
        run.kind("all tables of 3 gauges over 3 hours: every question");
        for members in 0..16 {
            for begin in 0..4 {
                for end in 0..4 {
                    run.case(table.ask(members, begin, end))?;
                }
            }
        }
    }
    Ok(())
}

/// Rooms from 0 rows to one more than enough, with none, one and two numbers left over.
fn every_room(run: &mut Run, table: &Table, groups: usize) -> Done {
    for rows in 0..=groups + 1 {
        for over in 0..3 {
            run.case(table.list(Lent::garbage(3 * rows + over)))?;
        }
    }
    Ok(())
}

/// Every two links with numbers up to 2, and every gauge count up to 3.
fn two_links(run: &mut Run) -> Done {
    run.kind("all pairs of links with numbers up to 2: check and list");
    for code in 0..3u32.pow(8) {
        let numbers: Vec<u32> = (0..8).map(|i| code / 3u32.pow(i) % 3).collect();
        for gauges in 0..4 {
            let table = Table {
                numbers: numbers.clone(),
                gauges,
            };
            run.case(table.check())?;
            run.case(table.list(Lent::garbage(7)))?;
        }
    }
    Ok(())
}

/// Tables of many shapes, and everything about each.
fn random_tables(run: &mut Run, random: &mut Random) -> Done {
    for round in 0..1000 {
        let gauges = random.between(2, 9);
        let hours = random.between(1, 14);
        run.kind("random tables of few gauges");
        let table = tables::scattered(gauges, hours, random.between(0, 30), random);
        everything(run, &table, random)?;
        run.kind("dense tables");
        let gauges = random.between(2, 7);
        let hours = random.between(1, 12);
        let longest = random.between(1, 6);
        let table = tables::dense(gauges, hours, longest, 3, random);
        everything(run, &table, random)?;
        run.kind("tables of adjacent hours");
        let table = tables::dense(
            random.between(2, 5),
            random.between(2, 12),
            3,
            u64::MAX,
            random,
        );
        everything(run, &table, random)?;
        run.kind("tables that end with the last hour");
        everything(run, &tables::moved_to_the_last_hour(table), random)?;
        if round % 4 == 0 {
            run.kind("many links of one pair");
            let count = random.between(1, 60);
            let table = tables::one_pair(count, random.between(2, 6), random);
            everything(run, &table, random)?;
        }
        if round % 8 == 0 {
            run.kind("random tables of many gauges");
            let gauges = random.between(10, 64);
            let hours = random.between(1, 60);
            let table = tables::scattered(gauges, hours, random.between(20, 400), random);
            everything(run, &table, random)?;
        }
    }
    Ok(())
}

/// Every set of gauges with every span, of a few tables.
fn every_question(run: &mut Run, random: &mut Random) -> Done {
    run.kind("random tables of 5 gauges over 8 hours: every question");
    for _ in 0..20 {
        let table = tables::dense(5, 8, random.between(1, 8), 3, random);
        for members in 0..1 << 6 {
            for begin in 0..9 {
                for end in 0..9 {
                    run.case(table.ask(members, begin, end))?;
                }
            }
        }
    }
    Ok(())
}

/// Check, list, write, read and ask of one accepted table.
fn everything(run: &mut Run, table: &Table, random: &mut Random) -> Done {
    let links = plain::check(&table.numbers, table.gauges).expect("made to be accepted");
    let groups = plain::groups_by_search(&links, usize::MAX).expect("there is no limit");
    let k = groups.len();
    run.case(table.check())?;
    if k <= 8 {
        every_room(run, table, k)?;
    }
    for rows in [k, k + 1, k.saturating_sub(1), k / 2, 0] {
        run.case(table.list(Lent {
            count: 3 * rows + random.below(3) as usize,
            fill: fill(random),
        }))?;
    }
    let file = table.file();
    for count in [file.len(), file.len() - 1, file.len() + 3, 0] {
        run.case(table.write(Lent {
            count,
            fill: fill(random),
        }))?;
    }
    let n = table.numbers.len();
    for numbers in [n, n + 2, n + 4, n.saturating_sub(1)] {
        run.case(read(&file, numbers))?;
    }
    questions(run, table, &groups, random)
}

/// Questions about groups, about what is nearly one, and nonsense.
fn questions(run: &mut Run, table: &Table, groups: &[plain::Row], random: &mut Random) -> Done {
    for group in groups.iter().take(12) {
        let plain::Row {
            begin,
            end,
            members,
        } = *group;
        run.case(table.ask(members, begin, end))?;
        run.case(table.ask(members, begin + random.below(end - begin + 1), end))?;
        run.case(table.ask(members, begin, begin + random.below(end - begin + 1)))?;
        run.case(table.ask(members, begin.saturating_sub(1), end))?;
        run.case(table.ask(members, begin, end + 1))?;
        run.case(table.ask(members & (members - 1), begin, end))?;
        run.case(table.ask(members | 1 << random.below(table.gauges.into()), begin, end))?;
        run.case(table.ask(members ^ 1 << random.below(64), begin, end))?;
        run.case(table.ask(members, end, begin))?;
    }
    run.case(table.ask(random.number(), random.number(), random.number()))?;
    run.case(table.ask(
        random.below(1 << table.gauges.min(6)),
        random.below(20),
        random.below(20),
    ))?;
    run.case(table.ask(3, 0, u64::MAX))?;
    run.case(table.ask(3, u64::MAX, u64::MAX))?;
    run.case(table.ask(u64::MAX, 0, 0))
}

/// Every entry that takes a table, of a table that is refused.
fn refused(run: &mut Run, table: &Table, random: &mut Random) -> Done {
    run.case(table.check())?;
    run.case(table.list(Lent {
        count: random.below(40) as usize,
        fill: fill(random),
    }))?;
    run.case(table.ask(random.below(16), random.below(20), random.below(20)))?;
    run.case(table.write(Lent {
        count: random.below(200) as usize,
        fill: fill(random),
    }))
}

/// Each reason at the first, a middle and the last link, and several faults in one table.
fn refusals(run: &mut Run, random: &mut Random) -> Done {
    for _ in 0..60 {
        let gauges = random.between(2, 12);
        let mut table = tables::scattered(gauges, 30, random.between(3, 60), random);
        if random.chance(3) {
            table = tables::moved_to_the_last_hour(table);
        }
        let links = table.links();
        if links == 0 {
            continue;
        }
        run.kind("reasons 4 to 8 at the first, a middle and the last link");
        for reason in 4..=8 {
            for place in [0, links / 2, links - 1] {
                if let Some(faulty) = tables::with_fault(&table, reason, place, random) {
                    refused(run, &faulty, random)?;
                }
            }
        }
        run.kind("several faults in one table");
        for _ in 0..10 {
            let mut faulty = table.clone();
            for _ in 0..random.between(2, 4) {
                let place = random.below(links as u64) as usize;
                let reason = random.between(4, 8).into();
                faulty = tables::with_fault(&faulty, reason, place, random).unwrap_or(faulty);
            }
            if random.chance(4) {
                faulty
                    .numbers
                    .extend(vec![1; random.between(1, 3) as usize]);
            }
            if random.chance(4) {
                faulty.gauges = *random.pick(&[0, 1, 64, 65, u32::MAX]);
            }
            refused(run, &faulty, random)?;
        }
        run.kind("reasons 1 and 3");
        for over in 1..4 {
            let mut faulty = table.clone();
            faulty.numbers.extend(vec![7; over]);
            refused(run, &faulty, random)?;
        }
        for gauges in [0, 65, 1 << 16, u32::MAX] {
            let faulty = Table {
                gauges,
                ..table.clone()
            };
            refused(run, &faulty, random)?;
        }
    }
    Ok(())
}

/// Large tables: the most links and gauges, one link too many, and lists that overflow.
fn large(run: &mut Run, random: &mut Random) -> Done {
    run.kind("large tables: check, write, read, and list in rooms too small, enough and more");
    let full = tables::one_pair(2048, 2, random);
    let mut over = full.clone();
    over.numbers.extend([0, 0, 0, 1]);
    let mut tables = vec![
        full.clone(),
        over,
        tables::complete(64),
        tables::threes(21),
        tables::threes(5),
        tables::nested(20),
        tables::all_different(200, random),
        tables::moved_to_the_last_hour(tables::all_different(100, random)),
        tables::dense(33, 40, 10, 3, random),
        tables::season(2048, random),
        tables::moved_to_the_last_hour(tables::season(700, random)),
        tables::short(2048, random),
    ];
    for extra in 1..4 {
        let mut odd = full.clone();
        odd.numbers.extend(vec![0; extra]);
        tables.push(odd);
    }
    for table in &tables {
        of_large(run, table, &[0, 2, 3, 300, 6144, 6145, 3 * 4096 + 2])?;
    }
    for table in heavy(random) {
        of_large(run, &table, &[0, 2, 3, 300])?;
    }
    Ok(())
}

/// Tables on which the second program takes seconds where the room is enough.
fn heavy(random: &mut Random) -> [Table; 3] {
    [
        tables::nested(64),
        tables::all_different(2048, random),
        tables::scattered(64, 3000, 2400, random),
    ]
}

fn of_large(run: &mut Run, table: &Table, rooms: &[usize]) -> Done {
    run.case(table.check())?;
    for &count in rooms {
        run.case(table.list(Lent::garbage(count)))?;
    }
    for count in [36_881, 36_882, 40_000] {
        run.case(table.write(Lent::garbage(count)))?;
    }
    for count in [8191, 8192, 8200] {
        run.case(read(&table.file(), count))?;
    }
    run.case(table.ask(3, 3, 9))?;
    run.case(table.ask(u64::MAX >> (64 - table.gauges.clamp(1, 64)), 3, 9))
}

/// Files: whole, cut at every byte, with every byte damaged, with records exchanged, spoilt by chance.
fn file_cases(run: &mut Run, random: &mut Random) -> Done {
    let small = Table {
        numbers: vec![4, 4, 0, 1, 7, 300, 2, 1],
        gauges: 3,
    };
    let mut tables = vec![tables::t(), small.clone()];
    for links in 0..8 {
        tables.push(tables::scattered(9, 100_000, links, random));
    }
    for table in &tables {
        let file = table.file();
        run.kind("files cut at every byte");
        for bytes in cut(&file) {
            for numbers in [
                table.numbers.len(),
                table.numbers.len() + 5,
                table.numbers.len() / 2,
            ] {
                run.case(read(&bytes, numbers))?;
            }
        }
        run.kind("files with every byte damaged");
        for bytes in damaged(&file, [1, 2, 4, 8, 16, 128, 255].into_iter()) {
            run.case(read(&bytes, table.numbers.len()))?;
            run.case(read(&bytes, table.numbers.len().saturating_sub(4)))?;
        }
        run.kind("files with records exchanged, left out or doubled");
        for bytes in exchanged(&file) {
            run.case(read(&bytes, table.numbers.len()))?;
            run.case(read(&bytes, table.numbers.len() + 9))?;
        }
        run.kind("files with bytes after the closing record");
        for more in [1, 2, 10, 18] {
            run.case(read(
                &[file.clone(), vec![0; more]].concat(),
                table.numbers.len(),
            ))?;
            run.case(read(
                &[&file[..], &file[..more]].concat(),
                table.numbers.len(),
            ))?;
        }
    }
    run.kind("a file of two links with every byte damaged in every way");
    for bytes in damaged(&small.file(), 1..=255) {
        run.case(read(&bytes, 9))?;
    }
    run.kind("writers' buffers from no byte to two more than enough");
    for table in &tables {
        for count in 0..=table.file().len() + 2 {
            run.case(table.write(Lent::garbage(count)))?;
        }
    }
    spoilt_files(run, random, 4000)
}

fn spoilt_files(run: &mut Run, random: &mut Random, count: u32) -> Done {
    run.kind("files spoilt by chance");
    for _ in 0..count {
        let links = random.between(0, 6);
        let table = tables::scattered(random.between(2, 64), 1000, links, random);
        let bytes = spoilt(&table.file(), random);
        run.case(read(&bytes, random.below(30) as usize))?;
    }
    Ok(())
}

/// A file, as the library and as the program list it: with bytes to spare, just enough, one too few and none.
fn listings(run: &mut Run, input: Vec<u8>) -> Done {
    let length = plain::listing(&input).len();
    for out in [length + 5, length, length - 1, 0] {
        run.case(listing(&input, out))?;
    }
    if run.way.program.is_some() {
        run.case(Case::Program { input })?;
    }
    Ok(())
}

/// The listing of files, by the library and by the program.
fn all_listings(run: &mut Run, random: &mut Random) -> Done {
    let t = tables::t();
    run.kind("listings of tables, by the library and by the program");
    let mut tables = vec![
        t.clone(),
        tables::complete(64),
        tables::threes(21),
        tables::nested(20),
        tables::one_pair(2048, 2, random),
        tables::one_pair(2049, 2, random),
        tables::all_different(200, random),
        tables::season(2000, random),
    ];
    for gauges in [0, 1, 2, 63, 64, 65, 300] {
        tables.push(Table {
            numbers: vec![0, 1, 0, 63],
            gauges,
        });
    }
    for links in 0..60 {
        let gauges = random.between(2, 64);
        tables.push(tables::scattered(gauges, 50, 3 * links, random));
        let dense = tables::dense(5, 9, 4, 3, random);
        tables.push(tables::moved_to_the_last_hour(dense));
    }
    for reason in 4..=8 {
        for place in [0, 2, 4] {
            tables.extend(tables::with_fault(&t, reason, place, random));
        }
    }
    for table in &tables {
        listings(run, table.file())?;
    }
    run.kind("listings of damaged files, by the library and by the program");
    let file = t.file();
    for input in cut(&file).into_iter().chain(exchanged(&file)) {
        listings(run, input)?;
    }
    for input in damaged(&file, [1, 128].into_iter()) {
        listings(run, input)?;
    }
    for _ in 0..200 {
        listings(run, spoilt(&file, random))?;
    }
    for length in [36_882, 40_959, 40_960, 40_961, 40_962, 100_000] {
        let mut input = tables::one_pair(2048, 2, random).file();
        input.resize(length, 0);
        listings(run, input)?;
        listings(run, vec![0; length])?;
    }
    Ok(())
}
