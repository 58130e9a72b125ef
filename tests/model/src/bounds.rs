//! Busy lengths, instances, bounds and slacks of a plan, by two methods.
//!
//! [`bounds`] is the plain one: it follows the equations, and each step of each fixed point sums
//! over the rows by division. [`bounds_tabulated`] writes the demand of a level down for every
//! tick and looks it up; it gives the same answers and is quick on plans of long busy lengths.

use crate::table::*;

pub const LONGEST_BUSY: u64 = 10_000_000;

/// D, M and the bound of a row.
#[derive(Clone, Copy, Debug, PartialEq, Eq)]
pub struct RowBound {
    pub busy: u64,
    pub instances: u64,
    pub bound: u64,
}

/// The bound and slack of a chain.
#[derive(Clone, Copy, Debug, PartialEq, Eq)]
pub struct ChainBound {
    pub bound: u64,
    pub slack: i64,
}

#[derive(Clone, Debug, PartialEq, Eq)]
pub struct Bounds {
    pub rows: Vec<RowBound>,
    pub chains: Vec<ChainBound>,
    pub accepted: bool,
}

/// One row's equations: its own period and time, and those of the rows beside it, which are the
/// other rows of its processor with equal or greater priority.
pub struct Level {
    period: u64,
    time: u64,
    beside: Vec<(u64, u64)>,
    /// How often a right-hand side was summed.
    pub sums: u64,
}

impl Level {
    pub fn of(table: &Table, row: usize) -> Level {
        let own = &table.rows[row];
        let beside = table
            .rows
            .iter()
            .enumerate()
            .filter(|(k, other)| {
                *k != row && other.processor == own.processor && other.priority >= own.priority
            })
            .map(|(k, other)| (table.period(k), other.time))
            .collect();
        Level { period: table.period(row), time: own.time, beside, sums: 0 }
    }

    /// What the rows beside this one ask for in t ticks.
    fn demand(&mut self, t: u64) -> u64 {
        self.sums += 1;
        self.beside.iter().map(|(period, time)| t.div_ceil(*period) * time).sum()
    }

    /// D, if it is within its limit.
    pub fn busy_length(&mut self) -> Option<u64> {
        let mut t = 1u64;
        loop {
            let next = t.div_ceil(self.period) * self.time + self.demand(t);
            if next == t {
                return Some(t);
            }
            if next > LONGEST_BUSY {
                return None;
            }
            t = next;
        }
    }

    /// C(m), sought from a number that isn't above it. Called for m up to M only.
    pub fn completion(&mut self, m: u64, start: u64) -> u64 {
        let mut t = start;
        loop {
            let next = m * self.time + self.demand(t);
            if next == t {
                return t;
            }
            t = next;
        }
    }

    /// The bounds of all M instances in order, given D.
    pub fn instance_bounds(&mut self, busy: u64) -> Vec<u64> {
        let mut before = 0;
        (1..=busy.div_ceil(self.period))
            .map(|m| {
                before = self.completion(m, before + self.time);
                before - (m - 1) * self.period
            })
            .collect()
    }

    /// D, M and the bound.
    pub fn row_bound(&mut self) -> Option<RowBound> {
        let busy = self.busy_length()?;
        let instances = busy.div_ceil(self.period);
        let mut before = 0;
        let mut bound = 0;
        for m in 1..=instances {
            before = self.completion(m, before + self.time);
            bound = bound.max(before - (m - 1) * self.period);
        }
        Some(RowBound { busy, instances, bound })
    }
}

/// The plain method.
pub fn bounds(table: &Table) -> Result<Bounds, No> {
    let mut rows = Vec::with_capacity(table.rows.len());
    for row in 0..table.rows.len() {
        match Level::of(table, row).row_bound() {
            Some(found) => rows.push(found),
            None => return no(6, row as u64 + 1),
        }
    }
    Ok(chains(table, rows))
}

/// Chain bounds, slacks and acceptance from the row bounds.
fn chains(table: &Table, rows: Vec<RowBound>) -> Bounds {
    let chains: Vec<ChainBound> = table
        .tasks
        .iter()
        .enumerate()
        .map(|(index, task)| {
            let own = table.rows.iter().zip(&rows).filter(|(row, _)| row.task == index);
            let bound = own.map(|(_, found)| found.bound).sum();
            ChainBound { bound, slack: task.deadline_in_force() as i64 - bound as i64 }
        })
        .collect();
    let accepted = chains.iter().all(|chain| chain.slack >= 0);
    Bounds { rows, chains, accepted }
}

/// The tabulated method.
pub fn bounds_tabulated(table: &Table) -> Result<Bounds, No> {
    let mut found: Vec<Option<Option<RowBound>>> = vec![None; table.rows.len()];
    for row in 0..table.rows.len() {
        if found[row].is_none() {
            tabulate(table, row, &mut found);
        }
        if found[row] == Some(None) {
            return no(6, row as u64 + 1);
        }
    }
    Ok(chains(table, found.into_iter().map(|one| one.unwrap().unwrap()).collect()))
}

/// Fills in the rows that share the level of this one: same processor, same priority.
fn tabulate(table: &Table, row: usize, found: &mut [Option<Option<RowBound>>]) {
    let own = &table.rows[row];
    let level: Vec<usize> = (0..table.rows.len())
        .filter(|k| {
            let other = &table.rows[*k];
            other.processor == own.processor && other.priority >= own.priority
        })
        .collect();
    let (asked, busy) = asked(table, &level);
    for k in level.iter().filter(|k| table.rows[**k].priority == own.priority) {
        let (period, time) = (table.period(*k), table.rows[*k].time);
        found[*k] = Some(busy.map(|busy| {
            let instances = busy.div_ceil(period);
            let mut t = 0u64;
            let mut bound = 0;
            for m in 1..=instances {
                t += time;
                loop {
                    let next = m * time + asked[t as usize] - t.div_ceil(period) * time;
                    if next == t {
                        break;
                    }
                    t = next;
                }
                bound = bound.max(t - (m - 1) * period);
            }
            RowBound { busy, instances, bound }
        }));
    }
}

/// The sum over the level of ceil(t / period) × time, for t from 0 up to some reach, and the busy
/// length, which is within reach if there is one.
fn asked(table: &Table, level: &[usize]) -> (Vec<u64>, Option<u64>) {
    let mut reach = 4096;
    loop {
        let mut asked = vec![0u64; reach + 2];
        for k in level {
            // A release at tick t counts from t + 1 on.
            for t in (0..=reach).step_by(table.period(*k) as usize) {
                asked[t + 1] += table.rows[*k].time;
            }
        }
        for t in 1..=reach {
            asked[t] += asked[t - 1];
            if asked[t] == t as u64 {
                return (asked, Some(t as u64));
            }
            if asked[t] > LONGEST_BUSY {
                return (asked, None);
            }
        }
        // Here asked[reach] is above reach, and not above the limit.
        reach = (8 * reach).min(LONGEST_BUSY as usize);
    }
}
