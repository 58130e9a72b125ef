//! Scripts of calls on the guard machine, through `rack_fresh`, `rack_arrive` and `rack_tick`,
//! against the model.
//!
//!     compare-guards [calls] [seed] [one script alone]
//!
//! Each script takes a random plan and starts afresh or from some state that fits. Most calls are
//! in order; the others have wrong numbers, bytes, lengths, tables or states, one at a time or
//! several. Every answer and every byte of every list is compared, with the bytes before and behind it; a refusal leaves
//! every byte, and is the first in order of those that have their reason.

use rack_model::guards::{self, RowState, State, LAST_CLOCK};
use rack_model::layout::{self, Answer, STATE_BYTES, TABLE_BYTES};
use rack_model::Table;
use rack_tests::archive;
use rack_tests::arguments::{apart, Arguments};
use rack_tests::lent::Lent;
use rack_tests::plans::{plan, Kind};
use rack_tests::random::Random;
use std::collections::BTreeMap;
use std::time::Instant;

const PROGRAM: &str = "compare-guards";

/// Calls in one script.
const SCRIPT: u64 = 200;

#[derive(Clone, Copy, Debug, PartialEq, Eq, PartialOrd, Ord)]
enum Call {
    Fresh,
    Arrive,
    Tick,
}

/// One call with everything that is handed over.
struct Handed {
    call: Call,
    table: Lent,
    state: Lent,
    task: u64,
    done: Lent,
    released: Lent,
}

#[derive(Default)]
struct Seen {
    outcomes: BTreeMap<(Call, u64), u64>,
    /// Scripts by the kind of their plan.
    kinds: BTreeMap<Kind, u64>,
    /// What was made wrong.
    wrongs: BTreeMap<&'static str, u64>,
    /// Refusals for which a later one had its reason too: the call, the number given, the later one.
    orders: BTreeMap<(Call, u64, u64), u64>,
    /// Scripts whose plan has as many rows, tasks and processors as there may be.
    most_rows: u64,
    most_tasks: u64,
    most_processors: u64,
    /// Calls taken on a state that no run reaches, ticks taken in the last 100 clocks, and those to the clock's end.
    unreached: u64,
    late: u64,
    last: u64,
    /// Calls made, and how many rows step 5 released in them.
    calls: u64,
    let_go: u64,
    /// Accepted ticks in which step 4 lowered a guard, and in which a row broke in on another.
    lowered: u64,
    broke_in: u64,
}

fn main() {
    let words: Vec<String> = std::env::args().skip(1).collect();
    let arguments = Arguments::of(PROGRAM, "calls", 2_000_000, &words);
    let start = Instant::now();
    let mut seen = Seen::default();
    let mut case = arguments.only.unwrap_or(0);
    while seen.calls < arguments.count {
        if let Err(what) = script(&mut Random::new(arguments.seed, case), &mut seen) {
            apart(PROGRAM, arguments.seed, case, &what);
        }
        case += 1;
        if arguments.only.is_some() {
            break;
        }
    }
    let count = |call: Call| -> BTreeMap<u64, u64> {
        seen.outcomes.iter().filter(|((c, _), _)| *c == call).map(|((_, n), count)| (*n, *count)).collect()
    };
    println!(
        "{PROGRAM}: seed {}, {} calls, {:.1} s",
        arguments.seed,
        seen.calls,
        start.elapsed().as_secs_f64()
    );
    println!("  fresh by number {:?}", count(Call::Fresh));
    println!("  arrive by number {:?}", count(Call::Arrive));
    println!("  tick by number {:?}", count(Call::Tick));
    println!("  refused where a later number had its reason too {:?}", seen.orders);
    println!("  made wrong {:?}", seen.wrongs);
    println!(
        "  released by step 5 {}, lowered by step 4 {}, broke in {}, taken on states that no run reaches {}, \
         ticks in the last 100 clocks {}, to the clock's end {}",
        seen.let_go, seen.lowered, seen.broke_in, seen.unreached, seen.late, seen.last
    );
    println!(
        "  scripts by plan {:?}, with 128 rows {}, 32 tasks {}, 16 processors {}",
        seen.kinds, seen.most_rows, seen.most_tasks, seen.most_processors
    );
    let due = [
        (Call::Fresh, &[0, 5, 14][..]),
        (Call::Arrive, &[0, 5, 8, 9, 14]),
        (Call::Tick, &[0, 5, 7, 10, 11, 12, 13, 14]),
    ];
    let mut missing: Vec<String> = Vec::new();
    for (call, numbers) in due {
        for number in numbers {
            if !seen.outcomes.contains_key(&(call, *number)) {
                missing.push(format!("{call:?} {number}"));
            }
        }
    }
    let orders = [
        (Call::Fresh, &[(5, 14)][..]),
        (Call::Arrive, &[(5, 14), (14, 8)]),
        (
            Call::Tick,
            &[
                (5, 14),
                (14, 10),
                (14, 7),
                (14, 13),
                (10, 7),
                (10, 13),
                (7, 13),
                (7, 11),
                (7, 12),
                (13, 11),
                (13, 12),
                (11, 12),
            ],
        ),
    ];
    for (call, pairs) in orders {
        for (given, later) in pairs {
            if !seen.orders.contains_key(&(call, *given, *later)) {
                missing.push(format!("{call:?} {given} where {later} had its reason too"));
            }
        }
    }
    for (name, count) in [
        ("a release", seen.let_go),
        ("a guard lowered", seen.lowered),
        ("a row that breaks in", seen.broke_in),
        ("a state that no run reaches", seen.unreached),
        ("a tick in the last 100 clocks", seen.late),
        ("a tick to the clock's end", seen.last),
        ("128 rows", seen.most_rows),
        ("32 tasks", seen.most_tasks),
        ("16 processors", seen.most_processors),
    ] {
        if count == 0 {
            missing.push(name.to_string());
        }
    }
    if arguments.only.is_none() && arguments.count >= 100_000 && !missing.is_empty() {
        println!("{PROGRAM}: never seen: {}", missing.join(", "));
        std::process::exit(1);
    }
}

fn script(random: &mut Random, seen: &mut Seen) -> Result<(), String> {
    let kinds = [Kind::Small, Kind::Small, Kind::Small, Kind::Middle, Kind::Wide, Kind::Full, Kind::Edges];
    let kind = random.pick(&kinds);
    *seen.kinds.entry(kind).or_default() += 1;
    let mut table = plan(random, kind, true);
    if random.one_in(2) {
        shorten(random, &mut table);
    }
    seen.most_rows += u64::from(table.rows.len() == 128);
    seen.most_tasks += u64::from(table.tasks.len() == 32);
    seen.most_processors += u64::from(table.processors == 16);
    let mut list = Lent::filled(random, TABLE_BYTES);
    scribble(random, &mut list);
    layout::put_table(&table, list.list());
    let mut state = Lent::filled(random, STATE_BYTES);
    scribble(random, &mut state);
    layout::put_state(&guards::fresh(&table), state.list());
    if random.one_in(3) {
        layout::put_state(&fitting(random, &table), state.list());
    }
    // How eager arrivals and early ends are in this script.
    let arrivals = random.between(1, 6);
    let early = random.between(2, 12);
    for step in 0..SCRIPT {
        let mut handed = in_order(random, &table, &list, &state, arrivals, early);
        let keep = match random.below(64) {
            0 => {
                layout::put_state(&fitting(random, &table), state.list());
                continue;
            }
            1..=8 => {
                *seen.wrongs.entry(spoil(random, &table, &mut handed)).or_default() += 1;
                false
            }
            9 | 10 => {
                for _ in 0..random.between(2, 3) {
                    *seen.wrongs.entry(spoil(random, &table, &mut handed)).or_default() += 1;
                }
                false
            }
            _ => true,
        };
        let after =
            compare(&handed, &table, seen).map_err(|what| format!("call {step} of the script: {what}"))?;
        if keep {
            state = after;
        }
    }
    Ok(())
}

/// Short times and periods, so that much happens in a script.
fn shorten(random: &mut Random, table: &mut Table) {
    let longest = random.pick(&[2, 4, 10]);
    for row in &mut table.rows {
        row.time = random.between(1, longest);
    }
    for task in &mut table.tasks {
        task.period = random.between(1, 3 * longest);
    }
}

/// Random words all over a list.
fn scribble(random: &mut Random, list: &mut Lent) {
    for index in 0..list.view().len() / 8 {
        let word = random.next();
        layout::put_word(list.list(), index, word);
    }
}

/// A random state that fits the plan, reached by some run or not.
fn fitting(random: &mut Random, table: &Table) -> State {
    let clock = match random.below(6) {
        0 => 0,
        1 => random.between(0, 3),
        2 => random.spread(0, 1000),
        3 | 4 => LAST_CLOCK - random.spread(0, 100),
        _ => random.between(0, LAST_CLOCK),
    };
    let mut rows: Vec<RowState> = Vec::new();
    for (r, row) in table.rows.iter().enumerate() {
        let period = table.period(r);
        let most = if row.first { clock + 1 } else { rows[r - 1].completed };
        let released = near_the_top(random, most);
        // Mostly few open instances.
        let completed = released
            - if random.one_in(4) {
                near_the_top(random, released)
            } else {
                random.between(0, released.min(2))
            };
        let used = if completed < released { random.between(0, row.time - 1) } else { 0 };
        let late = if row.first { released == clock + 1 } else { released < most };
        let guard = if late || random.one_in(3) {
            random.between(clock + 1, clock + period)
        } else {
            random.pick(&[0, clock, clock + period])
        };
        rows.push(RowState { released, completed, used, guard });
    }
    State { clock, rows }
}

fn near_the_top(random: &mut Random, most: u64) -> u64 {
    match random.below(4) {
        0 => random.between(0, most),
        1 => random.between(0, most.min(2)),
        2 => most - random.between(0, most.min(2)),
        _ => most,
    }
}

/// A call as a host in order makes it: mostly ticks, with arrivals that are mostly due.
fn in_order(
    random: &mut Random,
    table: &Table,
    list: &Lent,
    state: &Lent,
    arrivals: u64,
    early: u64,
) -> Handed {
    let now = layout::state_of(table, state.view()).expect("the state kept fits the plan");
    let call = if random.one_in(100) {
        Call::Fresh
    } else if random.below(10) < arrivals {
        Call::Arrive
    } else {
        Call::Tick
    };
    let due: Vec<u64> = table
        .rows
        .iter()
        .zip(&now.rows)
        .filter(|(row, kept)| row.first && kept.guard <= now.clock)
        .map(|(row, _)| row.task as u64 + 1)
        .collect();
    let task = if due.is_empty() || random.one_in(8) {
        random.between(1, table.tasks.len() as u64)
    } else {
        random.pick(&due)
    };
    let done: Vec<u8> = guards::running(table, &now)
        .iter()
        .map(|chosen| match chosen {
            Some(r) => u8::from(now.rows[*r].used + 1 == table.rows[*r].time || random.one_in(early)),
            None => 0,
        })
        .collect();
    let more = if random.one_in(4) { random.index(9) } else { 0 };
    Handed {
        call,
        table: list.clone(),
        state: state.clone(),
        task,
        done: Lent::of(random, &done),
        released: Lent::filled(random, table.rows.len() + more),
    }
}

/// Makes something wrong with a call, or at least strange, and says what.
fn spoil(random: &mut Random, table: &Table, handed: &mut Handed) -> &'static str {
    let what = match random.below(12) {
        0 => {
            handed.task = random.pick(&[0, table.tasks.len() as u64 + 1, u64::MAX, 1 << 32, (1 << 32) + 1]);
            "task past the plan's"
        }
        1 => {
            handed.task = random.word();
            "any task"
        }
        2..=4 => {
            // A done byte: the other one, or none at all.
            let length = handed.done.view().len();
            if length > 0 {
                let at = random.index(length);
                let byte = &mut handed.done.list()[at];
                *byte = if random.one_in(3) { random.next() as u8 } else { 1 ^ *byte };
            }
            "done byte"
        }
        5 => {
            let length = random.pick(&[0, table.processors - 1, table.processors + 1, 16]);
            handed.done = Lent::of(random, &vec![0; length as usize]);
            "done length"
        }
        6 => {
            let length = random.index(table.rows.len());
            handed.released = Lent::filled(random, length);
            "release list short"
        }
        7 if handed.table.view().len() == TABLE_BYTES => {
            let at = table_word(random, table);
            let old = layout::word(handed.table.view(), at);
            let new = changed(random, old);
            layout::put_word(handed.table.list(), at, new);
            "table word"
        }
        8 | 9 if handed.state.view().len() == STATE_BYTES => {
            let at = if random.one_in(8) { 0 } else { random.index(1 + 4 * table.rows.len()) };
            let old = layout::word(handed.state.view(), at);
            let clock = layout::word(handed.state.view(), 0);
            let new = if random.one_in(2) { changed(random, old) } else { changed(random, clock) };
            layout::put_word(handed.state.list(), at, new);
            "state word"
        }
        10 => {
            handed.table = relength(random, &handed.table);
            "table length"
        }
        _ => {
            handed.state = relength(random, &handed.state);
            "state length"
        }
    };
    if handed.call == Call::Tick && random.one_in(8) {
        handed.call = Call::Fresh;
    }
    what
}

/// A word of the table that the plan uses, or now and then one that it doesn't.
fn table_word(random: &mut Random, table: &Table) -> usize {
    match random.below(4) {
        0 => random.index(2),
        1 => layout::task_word(0) + random.index(3 * table.tasks.len()),
        2 => layout::row_word(0) + random.index(3 * table.rows.len()),
        _ => random.index(TABLE_BYTES / 8),
    }
}

fn changed(random: &mut Random, old: u64) -> u64 {
    match random.below(4) {
        0 => old.wrapping_add(1),
        1 => old.wrapping_sub(1),
        2 => old ^ (1 << random.below(64)),
        _ => random.word(),
    }
}

/// The same list, but longer or shorter.
fn relength(random: &mut Random, list: &Lent) -> Lent {
    let mut bytes = list.view().to_vec();
    let length = bytes.len();
    let new = match random.below(5) {
        0 => 0,
        1 => length.saturating_sub(1),
        2 => length.saturating_sub(8),
        3 => length + random.pick(&[1, 8, 1000]),
        _ => random.index(length + 1),
    };
    bytes.resize(new, 0);
    Lent::of(random, &bytes)
}

/// Makes one call on both sides and gives the state after it.
fn compare(handed: &Handed, table: &Table, seen: &mut Seen) -> Result<Lent, String> {
    let mut model = (handed.state.clone(), handed.released.clone());
    let mut proved = (handed.state.clone(), handed.released.clone());
    let (list, done) = (handed.table.clone(), handed.done.clone());
    let (model_says, archive_says) = match handed.call {
        Call::Fresh => (
            layout::rack_fresh(list.view(), model.0.list()),
            archive::rack_fresh(list.view(), proved.0.list()),
        ),
        Call::Arrive => (
            layout::rack_arrive(list.view(), model.0.list(), handed.task),
            archive::rack_arrive(list.view(), proved.0.list(), handed.task),
        ),
        Call::Tick => (
            layout::rack_tick(list.view(), model.0.list(), done.view(), model.1.list()),
            archive::rack_tick(list.view(), proved.0.list(), done.view(), proved.1.list()),
        ),
    };
    seen.calls += 1;
    *seen.outcomes.entry((handed.call, model_says.number)).or_default() += 1;
    let fault = if model_says != archive_says {
        Some("the answers differ".to_string())
    } else if let Some(what) = model.0.difference(&proved.0) {
        Some(format!("state: {what}"))
    } else if let Some(what) = model.1.difference(&proved.1) {
        Some(format!("release list: {what}"))
    } else if list != handed.table || done != handed.done {
        Some("the table or the done list was written to".to_string())
    } else if model_says.number != 0 && (model.0 != handed.state || model.1 != handed.released) {
        Some("the refusal changed something".to_string())
    } else {
        None
    };
    if let Some(what) = fault {
        return Err(describe(handed, table, model_says, archive_says, &what));
    }
    let reasons = reasons(handed);
    if model_says.number != reasons.first().copied().unwrap_or(0) {
        let what = format!("the numbers that have their reason are {reasons:?}");
        return Err(describe(handed, table, model_says, archive_says, &what));
    }
    for later in reasons.iter().skip(1) {
        *seen.orders.entry((handed.call, reasons[0], *later)).or_default() += 1;
    }
    if model_says.number == 0 {
        count(handed, &model.0, &model.1, seen);
    }
    Ok(model.0)
}

/// Every number that has its reason, in the order in which they are tried. Where there is no plan, no state or no done byte
/// for each processor, what would need them has no reason.
fn reasons(handed: &Handed) -> Vec<u64> {
    let mut found = Vec::new();
    let mut due = |number: u64, holds: bool| {
        if holds {
            found.push(number);
        }
    };
    let (list, task) = (handed.state.view(), handed.task);
    let Ok(plan) = layout::table_of(handed.table.view()) else {
        due(5, true);
        due(14, list.len() != STATE_BYTES);
        return found;
    };
    let state = layout::state_of(&plan, list).ok();
    match handed.call {
        Call::Fresh => due(14, list.len() != STATE_BYTES),
        Call::Arrive => {
            let has = 1 <= task && task <= plan.tasks.len() as u64;
            let first = plan.rows.iter().position(|row| row.first && row.task as u64 + 1 == task);
            due(14, state.is_none());
            due(8, !has);
            due(9, matches!((&state, first), (Some(s), Some(r)) if s.clock < s.rows[r].guard));
        }
        Call::Tick => {
            let done = handed.done.view();
            let bytes = done.len() as u64 == plan.processors;
            let chosen = state.as_ref().map(|s| guards::running(&plan, s));
            let wrong = |on: usize, r: Option<usize>| done[on] > 1 || (done[on] == 1 && r.is_none());
            let up = |on: usize, r: Option<usize>| match (&state, r) {
                (Some(s), Some(r)) => done[on] == 0 && s.rows[r].used + 1 == plan.rows[r].time,
                _ => false,
            };
            let some = |test: &dyn Fn(usize, Option<usize>) -> bool| match &chosen {
                Some(rows) => bytes && rows.iter().enumerate().any(|(on, r)| test(on, *r)),
                None => false,
            };
            due(14, state.is_none());
            due(10, !bytes);
            due(7, handed.released.view().len() < plan.rows.len());
            due(13, list.len() == STATE_BYTES && layout::word(list, 0) == LAST_CLOCK);
            due(11, some(&wrong));
            due(12, some(&up));
        }
    }
    found
}

/// Whether certainly no run reaches the state: a first row has released more than one instance a period.
fn unreached(plan: &Table, state: &State) -> bool {
    let mut rows = plan.rows.iter().zip(&state.rows).enumerate();
    rows.any(|(r, (row, kept))| row.first && kept.released > state.clock / plan.period(r) + 1)
}

/// Counts what an accepted call did, by the plan that was handed over.
fn count(handed: &Handed, after: &Lent, released: &Lent, seen: &mut Seen) {
    if handed.call == Call::Fresh {
        return;
    }
    let plan = layout::table_of(handed.table.view()).unwrap();
    let before = layout::state_of(&plan, handed.state.view()).unwrap();
    seen.unreached += u64::from(unreached(&plan, &before));
    if handed.call != Call::Tick {
        return;
    }
    seen.late += u64::from(before.clock >= LAST_CLOCK - 100);
    seen.last += u64::from(before.clock == LAST_CLOCK - 1);
    let after = layout::state_of(&plan, after.view()).expect("an accepted call keeps the state fitting");
    let rows = plan.rows.len();
    seen.let_go += released.view()[..rows].iter().map(|byte| u64::from(*byte)).sum::<u64>();
    seen.lowered += u64::from((0..rows).any(|r| after.rows[r].guard < before.rows[r].guard));
    seen.broke_in += u64::from((0..rows).any(|r| {
        after.rows[r].used == before.rows[r].used
            && before.rows[r].used > 0
            && after.rows[r].completed == before.rows[r].completed
    }));
}

fn describe(handed: &Handed, table: &Table, model: Answer, archive: Answer, what: &str) -> String {
    let file = String::from_utf8_lossy(&rack_model::file::write(table)).replace('\n', " ");
    let lengths = [handed.table.view().len(), handed.state.view().len(), handed.released.view().len()];
    let state = (handed.state.view().len() == STATE_BYTES).then(|| {
        let words = 1 + 4 * table.rows.len();
        (0..words).map(|at| layout::word(handed.state.view(), at)).collect::<Vec<_>>()
    });
    format!(
        "{:?}: {what}\nmodel {model:?}\narchive {archive:?}\nplan (before any damage): {file}\n\
         lengths of table, state and release list: {lengths:?}\ntask {}, done {:?}\nstate words {state:?}",
        handed.call,
        handed.task,
        handed.done.view(),
    )
}
