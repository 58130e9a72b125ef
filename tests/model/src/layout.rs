//! Tables and states as byte lists, and the five calls of the C boundary on byte lists.
//!
//! Every number is an unsigned 64-bit little-endian word.

use crate::bounds::{self, Bounds};
use crate::guards::{self, RowState, State};
use crate::table::*;
use crate::{file, report};

pub const TABLE_BYTES: usize = 3856;
pub const STATE_BYTES: usize = 4104;

/// Number 0: taken, and the value is the answer. Else a refusal's number and its place.
#[repr(C)]
#[derive(Clone, Copy, Debug, PartialEq, Eq)]
pub struct Answer {
    pub number: u64,
    pub value: u64,
}

fn answer(call: impl FnOnce() -> Result<u64, No>) -> Answer {
    match call() {
        Ok(value) => Answer { number: 0, value },
        Err(refusal) => Answer { number: refusal.number, value: refusal.place },
    }
}

pub fn word(list: &[u8], index: usize) -> u64 {
    u64::from_le_bytes(list[8 * index..8 * index + 8].try_into().unwrap())
}

pub fn put_word(list: &mut [u8], index: usize, value: u64) {
    list[8 * index..8 * index + 8].copy_from_slice(&value.to_le_bytes());
}

/// The word where a task's period stands, its deadline and steps behind it.
pub fn task_word(task: usize) -> usize {
    2 + 3 * task
}

/// The word of a table list where a row's processor stands, its priority and time behind it.
pub fn row_word(row: usize) -> usize {
    98 + 3 * row
}

/// The word of a state list where a row's released count stands, then completed, used, guard.
pub fn state_word(row: usize) -> usize {
    1 + 4 * row
}

/// The table in a list, or refusal 5.
pub fn table_of(list: &[u8]) -> Result<Table, No> {
    if list.len() != TABLE_BYTES {
        return no(5, 0);
    }
    let (processors, count) = (word(list, 0), word(list, 1));
    if !processors_in_range(processors) || !tasks_in_range(count) {
        return no(5, 0);
    }
    let mut tasks = Vec::with_capacity(MOST_TASKS as usize);
    let mut rows = Vec::with_capacity(MOST_ROWS);
    for index in 0..count as usize {
        let at = task_word(index);
        let (period, deadline, steps) = (word(list, at), word(list, at + 1), word(list, at + 2));
        let task = Task { period, deadline, steps };
        if !task_in_range(&task) || rows.len() + steps as usize > MOST_ROWS {
            return no(5, 0);
        }
        for step in 0..steps {
            let at = row_word(rows.len());
            let (processor, priority, time) = (word(list, at), word(list, at + 1), word(list, at + 2));
            if !row_in_range(processors, processor, priority, time) {
                return no(5, 0);
            }
            rows.push(Row { processor, priority, time, task: index, first: step == 0 });
        }
        tasks.push(task);
    }
    Ok(Table { processors, tasks, rows })
}

/// Puts a table into a list of at least `TABLE_BYTES`; words past its tasks and rows stay.
pub fn put_table(table: &Table, list: &mut [u8]) {
    put_word(list, 0, table.processors);
    put_word(list, 1, table.tasks.len() as u64);
    for (index, task) in table.tasks.iter().enumerate() {
        let at = task_word(index);
        put_word(list, at, task.period);
        put_word(list, at + 1, task.deadline);
        put_word(list, at + 2, task.steps);
    }
    for (index, row) in table.rows.iter().enumerate() {
        let at = row_word(index);
        put_word(list, at, row.processor);
        put_word(list, at + 1, row.priority);
        put_word(list, at + 2, row.time);
    }
}

/// The state in a list, or refusal 14 if the list has another length or doesn't fit the plan.
pub fn state_of(table: &Table, list: &[u8]) -> Result<State, No> {
    if list.len() != STATE_BYTES {
        return no(14, 0);
    }
    let rows = (0..table.rows.len())
        .map(|row| {
            let at = state_word(row);
            RowState {
                released: word(list, at),
                completed: word(list, at + 1),
                used: word(list, at + 2),
                guard: word(list, at + 3),
            }
        })
        .collect();
    let state = State { clock: word(list, 0), rows };
    if !guards::fits(table, &state) {
        return no(14, 0);
    }
    Ok(state)
}

/// Puts a state into a list of `STATE_BYTES`; words past its rows stay.
pub fn put_state(state: &State, list: &mut [u8]) {
    put_word(list, 0, state.clock);
    for (index, kept) in state.rows.iter().enumerate() {
        let at = state_word(index);
        put_word(list, at, kept.released);
        put_word(list, at + 1, kept.completed);
        put_word(list, at + 2, kept.used);
        put_word(list, at + 3, kept.guard);
    }
}

pub fn rack_table(plan: &[u8], table: &mut [u8]) -> Answer {
    answer(|| {
        if table.len() < TABLE_BYTES {
            return no(7, TABLE_BYTES as u64);
        }
        let found = file::read(plan)?;
        put_table(&found, table);
        Ok(found.rows.len() as u64)
    })
}

pub fn rack_fresh(table: &[u8], state: &mut [u8]) -> Answer {
    answer(|| {
        let table = table_of(table)?;
        if state.len() != STATE_BYTES {
            return no(14, 0);
        }
        put_state(&guards::fresh(&table), state);
        Ok(0)
    })
}

pub fn rack_arrive(table: &[u8], state: &mut [u8], task: u64) -> Answer {
    answer(|| {
        let table = table_of(table)?;
        let mut now = state_of(&table, state)?;
        let row = guards::arrive(&table, &mut now, task)?;
        put_state(&now, state);
        Ok(row)
    })
}

pub fn rack_tick(table: &[u8], state: &mut [u8], done: &[u8], released: &mut [u8]) -> Answer {
    answer(|| {
        let table = table_of(table)?;
        let mut now = state_of(&table, state)?;
        let clock = guards::tick(&table, &mut now, done, released)?;
        put_state(&now, state);
        Ok(clock)
    })
}

pub fn plan_report(plan: &[u8], out: &mut [u8]) -> Answer {
    put_report(report_of(bounds::bounds, plan), out)
}

/// The report on a plan file, or the reader's refusal, or that of the bounds. The method for the
/// bounds is the caller's choice.
pub fn report_of(method: fn(&Table) -> Result<Bounds, No>, plan: &[u8]) -> Result<String, No> {
    let table = file::read(plan)?;
    Ok(report::report(&table, &method(&table)?))
}

/// Puts a report into the output: refusal 7 comes last.
pub fn put_report(text: Result<String, No>, out: &mut [u8]) -> Answer {
    answer(|| {
        let text = text?;
        if out.len() < text.len() {
            return no(7, text.len() as u64);
        }
        out[..text.len()].copy_from_slice(text.as_bytes());
        Ok(text.len() as u64)
    })
}
