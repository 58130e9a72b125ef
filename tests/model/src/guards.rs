//! The guard machine: its state, when a state fits a plan, and fresh, arrive and tick.

use crate::table::*;

pub const LAST_CLOCK: u64 = 1_000_000_000_000;

/// What the state keeps for a row.
#[derive(Clone, Copy, Debug, Default, PartialEq, Eq)]
pub struct RowState {
    pub released: u64,
    pub completed: u64,
    pub used: u64,
    pub guard: u64,
}

impl RowState {
    pub fn open(&self) -> bool {
        self.completed < self.released
    }
}

/// One clock, and one entry for each row of the plan.
#[derive(Clone, Debug, PartialEq, Eq)]
pub struct State {
    pub clock: u64,
    pub rows: Vec<RowState>,
}

pub fn fresh(table: &Table) -> State {
    State { clock: 0, rows: vec![RowState::default(); table.rows.len()] }
}

pub fn fits(table: &Table, state: &State) -> bool {
    let clock = state.clock;
    if clock > LAST_CLOCK {
        return false;
    }
    // From here on clock + 1 and clock + period can't pass 64 bits.
    (0..table.rows.len()).all(|r| {
        let (row, kept) = (&table.rows[r], &state.rows[r]);
        let counts = kept.completed <= kept.released && kept.released <= clock + 1;
        let used = kept.used < row.time && (kept.open() || kept.used == 0);
        let guard = kept.guard <= clock + table.period(r);
        let chain = if row.first {
            kept.released != clock + 1 || kept.guard > clock
        } else {
            let ahead = state.rows[r - 1].completed;
            kept.released == ahead || (kept.released < ahead && kept.guard > clock)
        };
        counts && used && guard && chain
    })
}

/// The row that runs on each processor; processor 1 stands at index 0.
pub fn running(table: &Table, state: &State) -> Vec<Option<usize>> {
    let mut chosen: Vec<Option<usize>> = vec![None; table.processors as usize];
    for (r, row) in table.rows.iter().enumerate() {
        if state.rows[r].open() {
            let place = &mut chosen[row.processor as usize - 1];
            match *place {
                Some(best) if table.rows[best].priority >= row.priority => {}
                _ => *place = Some(r),
            }
        }
    }
    chosen
}

/// An arrival of the task of this number, at a state that fits: refusals 8 and 9.
pub fn arrive(table: &Table, state: &mut State, task: u64) -> Result<u64, No> {
    if task < 1 || task > table.tasks.len() as u64 {
        return no(8, task);
    }
    let index = task as usize - 1;
    let first: u64 = table.tasks[..index].iter().map(|before| before.steps).sum();
    let kept = &mut state.rows[first as usize];
    if state.clock < kept.guard {
        return no(9, kept.guard);
    }
    kept.released += 1;
    kept.guard = state.clock + table.tasks[index].period;
    Ok(first + 1)
}

/// A tick at a state that fits: refusals 10, 7, 13, 11 and 12. The first bytes of `released`
/// say which rows step 5 released.
pub fn tick(table: &Table, state: &mut State, done: &[u8], released: &mut [u8]) -> Result<u64, No> {
    if done.len() as u64 != table.processors {
        return no(10, table.processors);
    }
    if released.len() < table.rows.len() {
        return no(7, table.rows.len() as u64);
    }
    if state.clock == LAST_CLOCK {
        return no(13, LAST_CLOCK);
    }
    let chosen = running(table, state);
    for (index, byte) in done.iter().enumerate() {
        if *byte > 1 || (*byte == 1 && chosen[index].is_none()) {
            return no(11, index as u64 + 1);
        }
    }
    for (index, byte) in done.iter().enumerate() {
        if let Some(r) = chosen[index] {
            if *byte == 0 && state.rows[r].used + 1 == table.rows[r].time {
                return no(12, index as u64 + 1);
            }
        }
    }
    // Steps 1 and 2.
    for (index, byte) in done.iter().enumerate() {
        if let Some(r) = chosen[index] {
            let kept = &mut state.rows[r];
            kept.used += 1;
            if *byte == 1 {
                kept.completed += 1;
                kept.used = 0;
            }
        }
    }
    // Step 3.
    state.clock += 1;
    let clock = state.clock;
    // Step 4.
    let mut idle = [true; MOST_PROCESSORS as usize];
    for (row, kept) in table.rows.iter().zip(&state.rows) {
        if kept.open() {
            idle[row.processor as usize - 1] = false;
        }
    }
    for (row, kept) in table.rows.iter().zip(&mut state.rows) {
        if !row.first && idle[row.processor as usize - 1] {
            kept.guard = clock;
        }
    }
    // Step 5. Completed counts don't change here, so the order of rows doesn't matter.
    for r in 0..table.rows.len() {
        released[r] = 0;
        if !table.rows[r].first
            && state.rows[r - 1].completed > state.rows[r].released
            && state.rows[r].guard <= clock
        {
            state.rows[r].released += 1;
            state.rows[r].guard = clock + table.period(r);
            released[r] = 1;
        }
    }
    Ok(clock)
}
