//! Random plans of many kinds.

use crate::random::Random;
use rack_model::bounds::LONGEST_BUSY;
use rack_model::table::*;
use rack_model::{Row, Table, Task};

#[derive(Clone, Copy, Debug, PartialEq, Eq, PartialOrd, Ord)]
pub enum Kind {
    /// A few rows with short periods, often full.
    Small,
    /// Some dozen rows.
    Middle,
    /// Up to 128 rows on up to 16 processors.
    Wide,
    /// 32 tasks on 16 processors, often of 128 rows.
    Full,
    /// Values from all of their ranges.
    Edges,
    /// Busy lengths about the limit.
    Long,
}

/// A plan of this kind that is not heavy, unless heavy ones are welcome. Most have bounds.
pub fn plan(random: &mut Random, kind: Kind, heavy_welcome: bool) -> Table {
    loop {
        let table = any_plan(random, kind);
        let fit = kind == Kind::Long || random.one_in(8) || !overloaded(&table);
        if fit && (heavy_welcome || !heavy(&table)) {
            return table;
        }
    }
}

/// Whether a processor is asked for more than it has, as far as floating numbers can tell.
fn overloaded(table: &Table) -> bool {
    (1..=table.processors).any(|processor| {
        let rows = (0..table.rows.len()).filter(|r| table.rows[*r].processor == processor);
        rows.map(|r| table.rows[r].time as f64 / table.period(r) as f64).sum::<f64>() > 1.000_001
    })
}

fn any_plan(random: &mut Random, kind: Kind) -> Table {
    match kind {
        Kind::Small => {
            let longest = random.pick(&[4, 12, 24]);
            loaded(random, (1, 3), (1, 4), 3, 12, (1, longest))
        }
        Kind::Middle => {
            let longest = random.pick(&[40, 400, 5000]);
            loaded(random, (1, 6), (1, 12), 6, 40, (2, longest))
        }
        Kind::Wide => {
            let longest = random.pick(&[2000, 20_000, 1_000_000]);
            loaded(
                random,
                (1, MOST_PROCESSORS),
                (1, MOST_TASKS),
                MOST_STEPS,
                MOST_ROWS as u64,
                (100, longest),
            )
        }
        Kind::Full => {
            let longest = random.pick(&[2000, 20_000, 1_000_000]);
            let (processors, tasks, rows) = (MOST_PROCESSORS, MOST_TASKS, MOST_ROWS as u64);
            loaded(random, (processors, processors), (tasks, tasks), rows / tasks, rows, (100, longest))
        }
        Kind::Edges => edges(random),
        Kind::Long => long(random),
    }
}

/// Chains of random steps, with at most so many rows in all; rows are still to be filled.
fn chains(random: &mut Random, tasks: (u64, u64), steps: u64, rows: u64) -> Vec<u64> {
    let count = random.between(tasks.0, tasks.1);
    let mut left = rows;
    let mut found = Vec::new();
    for _ in 0..count {
        if left == 0 {
            break;
        }
        let most = steps.min(left);
        let own = if random.one_in(3) { most } else { random.between(1, most) };
        found.push(own);
        left -= own;
    }
    // Sometimes exactly as many rows as there may be.
    if random.one_in(4) {
        for own in &mut found {
            let more = left.min(steps - *own);
            *own += more;
            left -= more;
        }
    }
    found
}

fn deadline(random: &mut Random, period: u64, steps: u64) -> u64 {
    match random.below(5) {
        0 => random.spread(1, MOST_DEADLINE),
        1 => random.between(1, period * steps),
        2 => random.pick(&[period, period * steps, MOST_DEADLINE]),
        _ => 0,
    }
}

/// Processors loaded up to a share near 1, rows spread over them.
fn loaded(
    random: &mut Random,
    processors: (u64, u64),
    tasks: (u64, u64),
    steps: u64,
    rows: u64,
    periods: (u64, u64),
) -> Table {
    let processors = random.between(processors.0, processors.1);
    let urgency = random.below(4);
    let harmonic = random.one_in(3);
    let mut table = Table { processors, tasks: Vec::new(), rows: Vec::new() };
    for (task, steps) in chains(random, tasks, steps, rows).into_iter().enumerate() {
        let mut period = random.spread(periods.0, periods.1);
        if harmonic {
            period = (1u64 << period.ilog2()).max(periods.0);
        }
        let deadline = deadline(random, period, steps);
        table.tasks.push(Task { period, deadline, steps });
        // Some chains stay on one processor.
        let stay = random.one_in(4);
        let home = random.between(1, processors);
        for step in 0..steps {
            let processor = if stay { home } else { random.between(1, processors) };
            let priority = match urgency {
                0 => random.between(1, 2),
                1 => random.between(1, 5),
                2 => 1 + (MOST_PERIOD - period) * 254 / MOST_PERIOD,
                _ => random.between(1, 255),
            };
            table.rows.push(Row { processor, priority, time: 1, task, first: step == 0 });
        }
    }
    for processor in 1..=processors {
        load(random, &mut table, processor);
    }
    if random.one_in(20) {
        let r = random.index(table.rows.len());
        table.rows[r].time = (table.period(r) + random.between(0, 2)).min(MOST_TIME);
    }
    table
}

/// Gives the rows of a processor times that add up to a random load.
fn load(random: &mut Random, table: &mut Table, processor: u64) {
    let rows: Vec<usize> = (0..table.rows.len()).filter(|r| table.rows[*r].processor == processor).collect();
    let mut left = random.pick(&[0.4, 0.7, 0.9, 0.95, 0.98, 0.995, 1.0, 1.0, 1.01]);
    for (done, r) in rows.iter().enumerate() {
        let period = table.period(*r) as f64;
        let still = (rows.len() - done) as f64;
        let share =
            if still == 1.0 { left } else { left * (0.2 + 1.6 * random.below(1000) as f64 / 1000.0) / still };
        let time = (share * period).floor().clamp(1.0, MOST_TIME as f64);
        table.rows[*r].time = time as u64;
        left = (left - time / period).max(0.0);
    }
}

fn edges(random: &mut Random) -> Table {
    let processors = random.between(1, MOST_PROCESSORS);
    let mut table = Table { processors, tasks: Vec::new(), rows: Vec::new() };
    let rows = random.pick(&[2, 8, 128]);
    let lean = !random.one_in(4);
    for (task, steps) in chains(random, (1, MOST_TASKS), MOST_STEPS, rows).into_iter().enumerate() {
        let period = match random.below(3) {
            0 => MOST_PERIOD,
            1 => random.between(1, MOST_PERIOD),
            _ => random.spread(1, MOST_PERIOD),
        };
        table.tasks.push(Task { period, deadline: deadline(random, period, steps), steps });
        for step in 0..steps {
            let inner = random.between(1, 255);
            let priority = random.pick(&[1, 255, 128, inner]);
            let time = if lean { random.spread(1, (period / 8).max(1)) } else { random.spread(1, MOST_TIME) };
            let processor = random.between(1, processors);
            table.rows.push(Row { processor, priority, time, task, first: step == 0 });
        }
    }
    table
}

/// Two rows that fill a processor exactly or nearly, so that the busy length comes near its
/// limit, and sometimes a third one below.
fn long(random: &mut Random) -> Table {
    let mut rows: Vec<(u64, u64)> = Vec::new();
    match random.below(3) {
        0 => {
            // Periods a × g and b × g, whose least common multiple is about the limit.
            let (a, b) =
                random.pick(&[(25, 16), (16, 125), (13, 11), (32, 25), (12, 11), (40, 41), (7, 100)]);
            let halves = 2 * random.between(1, 8);
            let g = LONGEST_BUSY / (a * b) / halves * halves + random.pick(&[0, 0, 0, halves]);
            let part = random.between(1, halves - 1);
            rows.push((a * g, a * g / halves * part));
            rows.push((b * g, b * g / halves * (halves - part)));
        }
        1 => {
            let p = MOST_PERIOD - random.below(50);
            let q = MOST_PERIOD - random.below(50) - random.pick(&[0, 100_000, 500_000]);
            rows.push((p, p / 2));
            rows.push((q, q - q / 2));
        }
        _ => {
            let p = random.between(200_000, MOST_PERIOD);
            let spare = random.spread(1, p / 8);
            let q = random.between(500, MOST_PERIOD);
            rows.push((p, p - spare));
            rows.push((q, (q * spare / p).max(1)));
        }
    }
    for row in &mut rows {
        row.0 = row.0.min(MOST_PERIOD);
        let (less, more) = (random.below(16) == 0, random.below(16) == 0);
        row.1 = (row.1 + u64::from(more) - u64::from(less && row.1 > 1)).clamp(1, MOST_TIME);
    }
    if random.one_in(3) {
        rows.push((random.between(1000, MOST_PERIOD), random.between(1, 50)));
    }
    if random.one_in(2) {
        rows.swap(0, 1);
    }
    let tied = random.one_in(2);
    let processors = random.between(1, 2);
    let mut table = Table { processors, tasks: Vec::new(), rows: Vec::new() };
    for (task, (period, time)) in rows.into_iter().enumerate() {
        let deadline = random.pick(&[0, MOST_DEADLINE, LONGEST_BUSY]);
        table.tasks.push(Task { period, deadline, steps: 1 });
        let priority = if tied { 9 } else { 9 - task as u64 };
        table.rows.push(Row { processor: processors, priority, time, task, first: true });
    }
    table
}

/// Whether the plain method needs more than some million divisions: some busy length is
/// climbed slowly, or there are many instances.
pub fn heavy(table: &Table) -> bool {
    let mut left = 6_000_000u64;
    for (r, own) in table.rows.iter().enumerate() {
        let level: Vec<(u64, u64)> = (0..table.rows.len())
            .filter(|k| {
                let other = &table.rows[*k];
                other.processor == own.processor && other.priority >= own.priority
            })
            .map(|k| (table.period(k), table.rows[k].time))
            .collect();
        let mut t = 1u64;
        loop {
            let next = level.iter().map(|(period, time)| t.div_ceil(*period) * time).sum();
            left = left.saturating_sub(level.len() as u64);
            if left == 0 {
                return true;
            }
            if next > LONGEST_BUSY {
                return false;
            }
            if next == t {
                break;
            }
            t = next;
        }
        // Each instance takes two sums or more.
        left = left.saturating_sub(2 * t.div_ceil(table.period(r)) * level.len() as u64);
        if left == 0 {
            return true;
        }
    }
    false
}
