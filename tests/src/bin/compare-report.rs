//! Plan files, right and damaged, through `rack_table` and `plan_report`, against the model.
//!
//!     compare-report [cases] [seed] [one case alone]
//!     compare-report --files PLAN...
//!
//! Every answer and every byte of every lent list is compared, with the bytes before and behind the list; a refusal leaves
//! every byte, and no call writes to the file.

use rack_model::bounds::{bounds, bounds_tabulated, LONGEST_BUSY};
use rack_model::layout::{self, put_report, report_of, Answer, TABLE_BYTES};
use rack_model::{file, No, Table};
use rack_tests::arguments::{apart, Arguments};
use rack_tests::lent::Lent;
use rack_tests::plans::{heavy, plan, Kind};
use rack_tests::random::Random;
use rack_tests::{archive, damage};
use std::collections::{BTreeMap, BTreeSet};
use std::time::Instant;

const PROGRAM: &str = "compare-report";

/// A report is never longer in the first edition.
const ENOUGH: usize = 9604;

#[derive(Default)]
struct Seen {
    tables: BTreeMap<u64, u64>,
    reports: BTreeMap<u64, u64>,
    /// Plans by their kind, and what was done to their files.
    kinds: BTreeMap<Kind, u64>,
    damages: BTreeMap<&'static str, u64>,
    /// Plans with as many rows, tasks and processors as there may be.
    most_rows: u64,
    most_tasks: u64,
    most_processors: u64,
    /// Refusals for which a later one had its reason too: the call, the number given, the later one.
    orders: BTreeMap<(&'static str, u64, u64), u64>,
    accepted: u64,
    turned_down: u64,
    tied: u64,
    several_instances: u64,
    about_the_limit: u64,
    /// Numbers and keys of the lines refused.
    faults: BTreeSet<(u64, String)>,
}

fn main() {
    let words: Vec<String> = std::env::args().skip(1).collect();
    if words.first().map(String::as_str) == Some("--files") {
        return files(&words[1..]);
    }
    let arguments = Arguments::of(PROGRAM, "cases", 40_000, &words);
    let start = Instant::now();
    let mut seen = Seen::default();
    let cases = match arguments.only {
        Some(case) => case..case + 1,
        None => 0..arguments.count,
    };
    for case in cases {
        let mut random = Random::new(arguments.seed, case);
        let text = file_of(&mut random, case, &mut seen);
        if let Err(what) = compare(&mut random, &text, &mut seen) {
            let shown = String::from_utf8_lossy(&text);
            apart(PROGRAM, arguments.seed, case, &format!("{what}\nfile of {} bytes:\n{shown}", text.len()));
        }
    }
    let missing = missing(&seen);
    print(&arguments, &seen, start.elapsed().as_secs_f64());
    if arguments.only.is_none() && arguments.count >= 20_000 && !missing.is_empty() {
        println!("{PROGRAM}: never seen: {}", missing.join(", "));
        std::process::exit(1);
    }
}

/// How often everything came up.
fn print(arguments: &Arguments, seen: &Seen, seconds: f64) {
    println!("{PROGRAM}: seed {}, {seconds:.1} s", arguments.seed);
    println!("  plans {:?}", seen.kinds);
    println!("  files damaged {:?}", seen.damages);
    println!("  rack_table by number {:?}", seen.tables);
    println!("  plan_report by number {:?}", seen.reports);
    println!("  refused where a later number had its reason too {:?}", seen.orders);
    println!(
        "  accepted {}, turned down {}, tied {}, several instances {}, busy length within 1% of its limit {}, \
         128 rows {}, 32 tasks {}, 16 processors {}, {} kinds of line refused",
        seen.accepted,
        seen.turned_down,
        seen.tied,
        seen.several_instances,
        seen.about_the_limit,
        seen.most_rows,
        seen.most_tasks,
        seen.most_processors,
        seen.faults.len(),
    );
}

/// What a run of ordinary length must have met.
fn missing(seen: &Seen) -> Vec<String> {
    let mut missing = Vec::new();
    for number in [0, 1, 2, 3, 4, 7] {
        if !seen.tables.contains_key(&number) {
            missing.push(format!("rack_table {number}"));
        }
    }
    for number in [0, 1, 2, 3, 4, 6, 7] {
        if !seen.reports.contains_key(&number) {
            missing.push(format!("plan_report {number}"));
        }
    }
    // Reading tries 7 first, and the report last.
    for number in [1, 2, 3, 4] {
        for order in [("rack_table", 7, number), ("plan_report", number, 7)] {
            if !seen.orders.contains_key(&order) {
                missing.push(format!("{order:?}"));
            }
        }
    }
    if !seen.orders.contains_key(&("plan_report", 6, 7)) {
        missing.push("plan_report 6 with an output too short".to_string());
    }
    let keys = [
        "plan",
        "processors",
        "tasks",
        "task",
        "period",
        "deadline",
        "steps",
        "processor",
        "priority",
        "time",
    ];
    for key in keys {
        for number in [2, 3] {
            if !seen.faults.contains(&(number, key.to_string())) {
                missing.push(format!("{number} at {key}"));
            }
        }
    }
    for (name, count) in [
        ("2 behind the last line", u64::from(seen.faults.contains(&(2, "end".to_string())))),
        ("an accepted plan", seen.accepted),
        ("a plan turned down", seen.turned_down),
        ("ties", seen.tied),
        ("several instances", seen.several_instances),
        ("a busy length about its limit", seen.about_the_limit),
        ("128 rows", seen.most_rows),
        ("32 tasks", seen.most_tasks),
        ("16 processors", seen.most_processors),
    ] {
        if count == 0 {
            missing.push(name.to_string());
        }
    }
    missing
}

/// The file of a case.
fn file_of(random: &mut Random, case: u64, seen: &mut Seen) -> Vec<u8> {
    let heavy_welcome = random.one_in(1000);
    let kind = if heavy_welcome {
        random.pick(&[Kind::Small, Kind::Long])
    } else {
        let kinds = [
            Kind::Small,
            Kind::Small,
            Kind::Middle,
            Kind::Middle,
            Kind::Wide,
            Kind::Full,
            Kind::Edges,
            Kind::Long,
        ];
        random.pick(&kinds)
    };
    let mut text = file::write(&plan(random, kind, heavy_welcome));
    *seen.kinds.entry(kind).or_default() += 1;
    let mut note = |what: &'static str| *seen.damages.entry(what).or_default() += 1;
    match case % 20 {
        0 if random.one_in(10) => {
            note("empty");
            return Vec::new();
        }
        1 | 2 => {
            note("126 to 131 rows");
            return damage::about_the_most_rows(random);
        }
        3..=10 => note(damage::damage(random, &mut text)),
        11 => {
            for _ in 0..random.between(2, 4) {
                note(damage::damage(random, &mut text));
            }
        }
        _ => note("none"),
    }
    text
}

/// Compares everything that can be asked about one file.
fn compare(random: &mut Random, text: &[u8], seen: &mut Seen) -> Result<(), String> {
    let read = file::read(text);
    compare_table(random, text, &read, seen)?;
    let heavy = read.as_ref().is_ok_and(heavy);
    let report = report_of(if heavy { bounds_tabulated } else { bounds }, text);
    note(text, &read, &report, seen);
    let enough = compare_report(random, text, &report, ENOUGH, seen)?;
    if heavy {
        return Ok(());
    }
    let other = match random.below(4) {
        0 if enough.number == 0 => enough.value,
        1 if enough.number == 0 => enough.value - 1,
        2 if enough.number == 0 => random.between(0, enough.value + 20),
        _ => random.pick(&[0, 1, 8192]),
    };
    compare_report(random, text, &report, other as usize, seen)?;
    Ok(())
}

/// `rack_table`: the words of the table, the words past it, the answer.
fn compare_table(
    random: &mut Random,
    text: &[u8],
    read: &Result<Table, No>,
    seen: &mut Seen,
) -> Result<(), String> {
    let length = match random.below(8) {
        0 => TABLE_BYTES + random.between(1, 100) as usize,
        1 => {
            let short = random.index(TABLE_BYTES);
            random.pick(&[0, 1, TABLE_BYTES - 8, TABLE_BYTES - 1, short])
        }
        _ => TABLE_BYTES,
    };
    let lent = Lent::filled(random, length);
    let file = Lent::of(random, text);
    let (mut model_list, mut archive_list) = (lent.clone(), lent.clone());
    let model_says = layout::rack_table(text, model_list.list());
    let archive_says = archive::rack_table(file.view(), archive_list.list());
    *seen.tables.entry(model_says.number).or_default() += 1;
    same("rack_table", model_says, archive_says, &model_list, &archive_list)?;
    stayed("rack_table", archive_says, text, &file, &lent, &archive_list)?;
    if let (7, Err(also)) = (model_says.number, read) {
        *seen.orders.entry(("rack_table", 7, also.number)).or_default() += 1;
    }
    if let (Ok(table), true) = (read, length >= TABLE_BYTES) {
        if file::write(table) != text {
            return Err("the file written from the table read is another file".to_string());
        }
        let back = layout::table_of(&archive_list.view()[..TABLE_BYTES]);
        if back.as_ref() != Ok(table) || file::read(&file::write(&back.unwrap())) != *read {
            return Err("the table list doesn't hold the table of the file".to_string());
        }
    }
    Ok(())
}

fn compare_report(
    random: &mut Random,
    text: &[u8],
    report: &Result<String, No>,
    length: usize,
    seen: &mut Seen,
) -> Result<Answer, String> {
    let lent = Lent::filled(random, length);
    let file = Lent::of(random, text);
    let (mut model_out, mut archive_out) = (lent.clone(), lent.clone());
    let model_says = put_report(report.clone(), model_out.list());
    let archive_says = archive::plan_report(file.view(), archive_out.list());
    *seen.reports.entry(model_says.number).or_default() += 1;
    same("plan_report", model_says, archive_says, &model_out, &archive_out)?;
    stayed("plan_report", archive_says, text, &file, &lent, &archive_out)?;
    // An output of no bytes is too short for every report.
    if let (0, Err(refusal)) = (length, report) {
        *seen.orders.entry(("plan_report", refusal.number, 7)).or_default() += 1;
    }
    Ok(model_says)
}

fn same(call: &str, model: Answer, archive: Answer, one: &Lent, other: &Lent) -> Result<(), String> {
    if model != archive {
        return Err(format!("{call}: model {model:?}, archive {archive:?}"));
    }
    match one.difference(other) {
        Some(what) => Err(format!("{call} answered {model:?} on both sides; {what}")),
        None => Ok(()),
    }
}

/// The file is as it was, and after a refusal the list too.
fn stayed(
    call: &str,
    says: Answer,
    text: &[u8],
    file: &Lent,
    lent: &Lent,
    after: &Lent,
) -> Result<(), String> {
    if file.view() != text {
        return Err(format!("{call} wrote to the file"));
    }
    if says.number != 0 && lent != after {
        return Err(format!("{call} was refused and changed something"));
    }
    Ok(())
}

/// Counts what a case brought.
fn note(text: &[u8], read: &Result<Table, No>, report: &Result<String, No>, seen: &mut Seen) {
    match read {
        Ok(table) => {
            let rows = &table.rows;
            seen.most_rows += u64::from(rows.len() == 128);
            seen.most_tasks += u64::from(table.tasks.len() == 32);
            seen.most_processors += u64::from(table.processors == 16);
            seen.tied += u64::from(rows.iter().enumerate().any(|(r, row)| {
                rows[..r].iter().any(|k| k.processor == row.processor && k.priority == row.priority)
            }));
        }
        Err(refusal) if refusal.number == 2 || refusal.number == 3 => {
            seen.faults.insert((refusal.number, key_due(text, refusal.place)));
        }
        Err(_) => {}
    }
    if let Ok(lines) = report {
        if lines.ends_with("accepted=1\n") {
            seen.accepted += 1;
        } else {
            seen.turned_down += 1;
        }
        let values = |key: &'static str| {
            lines.lines().filter_map(move |line| line.strip_prefix(key)?.parse::<u64>().ok())
        };
        seen.several_instances += u64::from(values("instances=").any(|instances| instances > 1));
        seen.about_the_limit += u64::from(values("busy=").any(|busy| busy > LONGEST_BUSY / 100 * 99));
    }
}

/// The key that was due on a refused line: found by giving the lines before it to the reader and
/// following what it must ask for next.
fn key_due(text: &[u8], line: u64) -> String {
    let mut lines = text.split(|byte| *byte == b'\n');
    let mut value = || -> u64 {
        let line = lines.next().unwrap_or_default();
        let sign = line.iter().position(|byte| *byte == b'=').map_or(line.len(), |at| at + 1);
        String::from_utf8_lossy(&line[sign..]).parse().unwrap_or(0)
    };
    let mut due = 0;
    let mut at = |key: &str| {
        due += 1;
        (due == line).then(|| key.to_string())
    };
    for key in ["plan", "processors"] {
        if let Some(found) = at(key) {
            return found;
        }
        value();
    }
    if let Some(found) = at("tasks") {
        return found;
    }
    for _ in 0..value() {
        let mut steps = 0;
        for key in ["task", "period", "deadline", "steps"] {
            if let Some(found) = at(key) {
                return found;
            }
            steps = value();
        }
        for _ in 0..steps {
            for key in ["processor", "priority", "time"] {
                if let Some(found) = at(key) {
                    return found;
                }
                value();
            }
        }
    }
    "end".to_string()
}

/// Compares given files, by the tabulated method, and says how long each took.
fn files(names: &[String]) {
    for name in names {
        let text = std::fs::read(name).unwrap_or_else(|fault| {
            println!("{PROGRAM}: {name}: {fault}");
            std::process::exit(2);
        });
        let start = Instant::now();
        let report = report_of(bounds_tabulated, &text);
        let model_time = start.elapsed().as_secs_f64();
        let mut random = Random::new(1, 0);
        let mut out = Lent::filled(&mut random, ENOUGH);
        let mut expected = out.clone();
        let start = Instant::now();
        let archive_says = archive::plan_report(&text, out.list());
        let archive_time = start.elapsed().as_secs_f64();
        let model_says = put_report(report, expected.list());
        if let Err(what) = same("plan_report", model_says, archive_says, &expected, &out) {
            println!("{PROGRAM}: APART on {name}\n{what}");
            std::process::exit(1);
        }
        let Answer { number, value } = model_says;
        println!("{PROGRAM}: {name}: number {number}, value {value}, archive {archive_time:.2} s, model {model_time:.2} s");
    }
}
