//! The archive timed against the plain model: same machine, same run, same inputs, both at the
//! highest optimisation. What is printed is a ratio, the archive's time by the model's: below 1
//! the archive is faster.
//!
//!     bench/run               everything, a few minutes
//!     bench/run --full        the model's bounds of the slow plans too, however long they take
//!     bench/run --times       the times beside each ratio
//!
//! Times are processor time, so that other work on the machine disturbs them less. Slow plans are
//! the files of `bench/plans`. On them the model gets a time limit, and a ratio is then an upper
//! one; the archive runs in a process of its own and gets a limit too.

use rack_model::bounds::Level;
use rack_model::guards;
use rack_model::layout::{self, Answer, STATE_BYTES, TABLE_BYTES};
use rack_model::{file, Row, Table, Task};
use rack_tests::archive;
use rack_tests::plans::{plan, Kind};
use rack_tests::random::Random;
use std::process::{Command, Stdio};
use std::sync::atomic::{AtomicBool, Ordering};
use std::time::{Duration, Instant};

/// How long the model may take for a slow plan in processor time, and the archive in real time.
const MODEL_LIMIT: f64 = 20.0;
const ARCHIVE_LIMIT: Duration = Duration::from_secs(120);

const REPORT_BYTES: usize = 9604;

fn main() {
    let words: Vec<String> = std::env::args().skip(1).collect();
    if words.first().is_some_and(|word| word == "--archive") {
        return archive_alone(&words[1]);
    }
    if words.iter().any(|word| word != "--full" && word != "--times") {
        eprintln!("usage: rack-bench [--full] [--times]");
        std::process::exit(2);
    }
    let limit = if words.iter().any(|word| word == "--full") { f64::INFINITY } else { MODEL_LIMIT };
    TIMES.store(words.iter().any(|word| word == "--times"), Ordering::Relaxed);
    row("archive time / model time", "ratio", "archive", "model");
    reports();
    reading();
    for rows in [4, 32, 128] {
        guard_calls(rows);
    }
    slow_plans(limit);
}

/// Seconds of processor time that this process has used.
fn used() -> f64 {
    #[repr(C)]
    struct Time {
        seconds: i64,
        nanoseconds: i64,
    }
    extern "C" {
        fn clock_gettime(clock: i32, time: *mut Time) -> i32;
    }
    const OF_THE_PROCESS: i32 = 2;
    let mut time = Time { seconds: 0, nanoseconds: 0 };
    let failed = unsafe { clock_gettime(OF_THE_PROCESS, &mut time) };
    assert_eq!(failed, 0);
    time.seconds as f64 + time.nanoseconds as f64 / 1e9
}

/// Whether the times are shown beside the ratios.
static TIMES: AtomicBool = AtomicBool::new(false);

/// One row of the table.
fn row(name: &str, ratio: &str, archive: &str, model: &str) {
    if TIMES.load(Ordering::Relaxed) {
        println!("{name:44} {ratio:>9} {archive:>12} {model:>12}");
    } else {
        println!("{name:44} {ratio:>9}");
    }
}

fn line(name: &str, archive: f64, model: f64) {
    row(name, &format!("{:.3}", archive / model), &shown(archive), &shown(model));
}

/// Seconds in a unit that fits.
fn shown(seconds: f64) -> String {
    match seconds {
        s if s < 1e-6 => format!("{:.0} ns", s * 1e9),
        s if s < 1e-3 => format!("{:.2} us", s * 1e6),
        s if s < 1.0 => format!("{:.2} ms", s * 1e3),
        s => format!("{s:.2} s"),
    }
}

/// Times two sides turn by turn, and gives each one's best time for one piece of work.
fn both(mut archive: impl FnMut(), mut model: impl FnMut()) -> (f64, f64) {
    let mut best = (f64::MAX, f64::MAX);
    let round = |side: &mut dyn FnMut()| {
        let start = used();
        let mut times = 0u32;
        while used() - start < 0.06 {
            side();
            times += 1;
        }
        (used() - start) / f64::from(times)
    };
    for _ in 0..12 {
        best.0 = best.0.min(round(&mut archive));
        best.1 = best.1.min(round(&mut model));
    }
    best
}

/// Plan files of one kind, none of them heavy.
fn files(kind: Kind, count: u64) -> Vec<Vec<u8>> {
    (0..count).map(|case| file::write(&plan(&mut Random::new(7, case), kind, false))).collect()
}

fn reports() {
    for (name, kind) in [
        ("report, small plans", Kind::Small),
        ("report, plans of some dozen rows", Kind::Middle),
        ("report, plans of up to 128 rows", Kind::Wide),
        ("report, busy lengths about 10,000,000", Kind::Long),
    ] {
        let files = files(kind, 100);
        let (mut one, mut other) = (vec![0; REPORT_BYTES], vec![0; REPORT_BYTES]);
        let (archive, model) = both(
            || files.iter().for_each(|text| sink(archive::plan_report(text, &mut one))),
            || files.iter().for_each(|text| sink(layout::plan_report(text, &mut other))),
        );
        line(name, archive / 100.0, model / 100.0);
    }
}

fn reading() {
    for (name, kind) in [
        ("reading alone, small plans", Kind::Small),
        ("reading alone, plans of some dozen rows", Kind::Middle),
        ("reading alone, plans of up to 128 rows", Kind::Wide),
    ] {
        let files = files(kind, 100);
        let (mut one, mut other) = (vec![0; TABLE_BYTES], vec![0; TABLE_BYTES]);
        let (archive, model) = both(
            || files.iter().for_each(|text| sink(archive::rack_table(text, &mut one))),
            || files.iter().for_each(|text| sink(layout::rack_table(text, &mut other))),
        );
        line(name, archive / 100.0, model / 100.0);
    }
}

fn sink(answer: Answer) {
    std::hint::black_box(answer);
}

/// A plan of so many rows, in chains of four steps (one step each where there are four rows),
/// eight rows to a processor, each processor at eight tenths of its capacity.
fn even_plan(rows: usize) -> Table {
    let steps = if rows == 4 { 1 } else { 4 };
    let processors = (rows / 8).max(1);
    let mut table = Table { processors: processors as u64, tasks: Vec::new(), rows: Vec::new() };
    for task in 0..rows / steps {
        let period = 60 + 7 * (task as u64 % 8);
        table.tasks.push(Task { period, deadline: 0, steps: steps as u64 });
        for step in 0..steps {
            let row = table.rows.len();
            let processor = (row % processors) as u64 + 1;
            let on_it = (rows / processors) as u64;
            let time = (8 * period / 10 / on_it).max(1);
            let priority = 1 + (row as u64 * 37) % 255;
            table.rows.push(Row { processor, priority, time, task, first: step == 0 });
        }
    }
    table
}

/// One call of a script.
enum Step {
    Arrive(u64),
    Tick(Vec<u8>),
}

/// Arrivals as soon as they may come, and ticks with full and early ends.
fn script(table: &Table, ticks: u64) -> Vec<Step> {
    let mut random = Random::new(3, 0);
    let mut state = guards::fresh(table);
    let mut steps = Vec::new();
    for _ in 0..ticks {
        for task in 1..=table.tasks.len() as u64 {
            if guards::arrive(table, &mut state, task).is_ok() {
                steps.push(Step::Arrive(task));
            }
        }
        let done: Vec<u8> = guards::running(table, &state)
            .iter()
            .map(|chosen| {
                chosen.map_or(0, |r| {
                    u8::from(state.rows[r].used + 1 == table.rows[r].time || random.one_in(16))
                })
            })
            .collect();
        guards::tick(table, &mut state, &done, &mut vec![0; table.rows.len()]).unwrap();
        steps.push(Step::Tick(done));
    }
    steps
}

/// Ticks with the arrivals between them, and arrivals alone, from a fresh state each time.
fn guard_calls(rows: usize) {
    let table = even_plan(rows);
    let mut list = vec![0; TABLE_BYTES];
    layout::put_table(&table, &mut list);
    let steps = script(&table, 500);
    let mut one = (vec![0; STATE_BYTES], vec![0; rows]);
    let mut other = one.clone();
    let (archive, model) = both(
        || {
            sink(archive::rack_fresh(&list, &mut one.0));
            for step in &steps {
                sink(match step {
                    Step::Arrive(task) => archive::rack_arrive(&list, &mut one.0, *task),
                    Step::Tick(done) => archive::rack_tick(&list, &mut one.0, done, &mut one.1),
                });
            }
        },
        || {
            sink(layout::rack_fresh(&list, &mut other.0));
            for step in &steps {
                sink(match step {
                    Step::Arrive(task) => layout::rack_arrive(&list, &mut other.0, *task),
                    Step::Tick(done) => layout::rack_tick(&list, &mut other.0, done, &mut other.1),
                });
            }
        },
    );
    assert!(one == other && layout::word(&one.0, 0) == 500, "the two sides went apart");
    let calls = steps.len() as f64 + 1.0;
    line(&format!("ticks, with arrivals between, {rows} rows"), archive / calls, model / calls);
    let tasks = table.tasks.len() as u64;
    let (archive, model) = both(
        || {
            sink(archive::rack_fresh(&list, &mut one.0));
            (1..=tasks).for_each(|task| sink(archive::rack_arrive(&list, &mut one.0, task)));
        },
        || {
            sink(layout::rack_fresh(&list, &mut other.0));
            (1..=tasks).for_each(|task| sink(layout::rack_arrive(&list, &mut other.0, task)));
        },
    );
    let calls = tasks as f64 + 1.0;
    line(&format!("arrivals, {rows} rows"), archive / calls, model / calls);
}

fn slow_plans(limit: f64) {
    let folder = concat!(env!("CARGO_MANIFEST_DIR"), "/plans");
    let mut paths: Vec<_> = std::fs::read_dir(folder)
        .unwrap()
        .map(|entry| entry.unwrap().path())
        .filter(|path| path.extension().is_some_and(|extension| extension == "plan"))
        .collect();
    paths.sort();
    for path in paths {
        let name = format!("slow plan {}", path.file_stem().unwrap().to_string_lossy());
        let table = file::read(&std::fs::read(&path).unwrap()).unwrap();
        let archive = archive_apart(&path.to_string_lossy());
        let (model, rows_done) = model_within(&table, limit);
        let all = rows_done == table.rows.len();
        let model_shown = if all { shown(model) } else { format!("> {}", shown(model)) };
        match archive {
            Some(seconds) => {
                let ratio = format!("{}{:.4}", if all { "" } else { "< " }, seconds / model);
                row(&name, &ratio, &shown(seconds), &model_shown);
            }
            None => {
                let over = format!("> {}", shown(ARCHIVE_LIMIT.as_secs_f64()));
                row(&name, "?", &over, &model_shown);
            }
        }
    }
}

/// The model's time for the bounds of a plan row by row, up to a limit, and how many rows were
/// done. A row without a busy length ends the plan.
fn model_within(table: &Table, limit: f64) -> (f64, usize) {
    let start = used();
    for row in 0..table.rows.len() {
        if std::hint::black_box(Level::of(table, row).row_bound()).is_none() {
            break;
        }
        if used() - start > limit {
            return (used() - start, row + 1);
        }
    }
    (used() - start, table.rows.len())
}

/// The archive's time for a report, in a process of its own; none if it passes the limit.
fn archive_apart(path: &str) -> Option<f64> {
    let program = std::env::current_exe().unwrap();
    let mut child = Command::new(program).args(["--archive", path]).stdout(Stdio::piped()).spawn().unwrap();
    let start = Instant::now();
    while child.try_wait().unwrap().is_none() {
        if start.elapsed() > ARCHIVE_LIMIT {
            child.kill().unwrap();
            child.wait().unwrap();
            return None;
        }
        std::thread::sleep(Duration::from_millis(20));
    }
    let output = child.wait_with_output().unwrap();
    String::from_utf8(output.stdout).unwrap().trim().parse().ok()
}

fn archive_alone(path: &str) {
    let text = std::fs::read(path).unwrap();
    let mut out = vec![0; REPORT_BYTES];
    let start = used();
    sink(archive::plan_report(&text, &mut out));
    println!("{}", used() - start);
}
