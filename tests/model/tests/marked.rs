//! The model itself, held to every example that the scope document marks.

use rack_model::bounds::{bounds, bounds_tabulated, Level};
use rack_model::guards::{self, arrive, fresh, tick, State, LAST_CLOCK};
use rack_model::layout::{self, Answer, STATE_BYTES, TABLE_BYTES};
use rack_model::{file, report, No, Row, Table, Task};

const PLAN: &str = include_str!("../../../examples/paper.plan");
const REPORT: &str = include_str!("../../../examples/paper.report");

/// A plan whose chains have one step each, all on processor 1: period, priority, time.
fn singles(rows: &[(u64, u64, u64)]) -> Table {
    Table {
        processors: 1,
        tasks: rows.iter().map(|(period, _, _)| Task { period: *period, deadline: 0, steps: 1 }).collect(),
        rows: rows
            .iter()
            .enumerate()
            .map(|(task, (_, priority, time))| Row {
                processor: 1,
                priority: *priority,
                time: *time,
                task,
                first: true,
            })
            .collect(),
    }
}

fn paper() -> Table {
    file::read(PLAN.as_bytes()).unwrap()
}

/// Both methods, which must agree: D, M and bound of each row.
fn rows_of(table: &Table) -> Result<Vec<(u64, u64, u64)>, No> {
    let found = bounds(table);
    assert_eq!(found, bounds_tabulated(table));
    found.map(|all| all.rows.iter().map(|row| (row.busy, row.instances, row.bound)).collect())
}

#[test]
fn p1_the_report() {
    let table = paper();
    assert_eq!(report::report(&table, &bounds(&table).unwrap()), REPORT);
    assert_eq!(file::write(&table), PLAN.as_bytes());
}

#[test]
fn p2_one_full_row() {
    assert_eq!(rows_of(&singles(&[(5, 1, 5)])), Ok(vec![(5, 1, 5)]));
}

#[test]
fn p3_time_above_period() {
    assert_eq!(rows_of(&singles(&[(5, 1, 6)])), Err(No { number: 6, place: 1 }));
}

#[test]
fn p4_several_instances() {
    let table = singles(&[(70, 2, 26), (100, 1, 62)]);
    assert_eq!(rows_of(&table).unwrap()[1], (694, 7, 118));
    assert_eq!(Level::of(&table, 1).instance_bounds(694), [114, 102, 116, 104, 118, 106, 94]);
}

#[test]
fn p5_equal_priorities() {
    assert_eq!(rows_of(&singles(&[(10, 1, 3), (10, 1, 4)])), Ok(vec![(7, 1, 7), (7, 1, 7)]));
}

#[test]
fn p6_one_above_the_other() {
    assert_eq!(rows_of(&singles(&[(10, 2, 3), (10, 1, 4)])), Ok(vec![(3, 1, 3), (7, 1, 7)]));
}

#[test]
fn p7_the_longest_busy_length() {
    let found = rows_of(&singles(&[(625_000, 2, 312_500), (80_000, 1, 40_000)])).unwrap();
    assert_eq!((found[1].0, found[1].1), (10_000_000, 125));
}

#[test]
fn p8_past_the_longest() {
    let table = singles(&[(1_000_000, 2, 500_000), (999_998, 1, 499_999)]);
    assert_eq!(rows_of(&table), Err(No { number: 6, place: 2 }));
}

/// Plays arrivals (clock, task) on the paper's plan, every instance using its full time. Gives
/// the releases of step 5 and the ends, as (clock, row number).
fn play(arrivals: &[(u64, u64)], ticks: u64) -> (Vec<(u64, usize)>, Vec<(u64, usize)>) {
    let table = paper();
    let mut state = fresh(&table);
    let (mut releases, mut ends) = (Vec::new(), Vec::new());
    for clock in 0..ticks {
        for (_, task) in arrivals.iter().filter(|(at, _)| *at == clock) {
            arrive(&table, &mut state, *task).unwrap();
        }
        let done: Vec<u8> = guards::running(&table, &state)
            .iter()
            .map(|chosen| chosen.map_or(0, |r| u8::from(state.rows[r].used + 1 == table.rows[r].time)))
            .collect();
        let before = state.clone();
        let mut released = [7; 5];
        assert_eq!(tick(&table, &mut state, &done, &mut released), Ok(clock + 1));
        assert_eq!(released[4], 7);
        for r in 0..4 {
            if released[r] == 1 {
                releases.push((clock + 1, r + 1));
            }
            if state.rows[r].completed > before.rows[r].completed {
                ends.push((clock + 1, r + 1));
            }
        }
        assert!(guards::fits(&table, &state));
    }
    (releases, ends)
}

#[test]
fn p9_an_idle_point_opens_the_guard() {
    let (releases, ends) = play(&[(0, 1), (4, 1), (8, 1), (0, 2), (6, 2), (4, 3)], 14);
    assert_eq!(releases, [(4, 3), (9, 3)]);
    assert_eq!(ends.iter().filter(|(_, row)| *row == 4).collect::<Vec<_>>(), [&(9, 4)]);
}

#[test]
fn p10_idle_already() {
    let (releases, _) = play(&[(0, 1), (4, 1), (8, 1), (0, 2), (6, 2)], 14);
    assert_eq!(releases, [(4, 3), (8, 3)]);
}

#[test]
fn p11_an_arrival_too_soon() {
    let table = paper();
    let mut state = fresh(&table);
    assert_eq!(arrive(&table, &mut state, 1), Ok(1));
    for done in [0, 1, 0] {
        tick(&table, &mut state, &[done, 0], &mut [0; 4]).unwrap();
    }
    let before = state.clone();
    assert_eq!(arrive(&table, &mut state, 1), Err(No { number: 9, place: 4 }));
    assert_eq!(state, before);
}

#[test]
fn p12_past_its_time() {
    let table = paper();
    let mut state = fresh(&table);
    arrive(&table, &mut state, 1).unwrap();
    assert_eq!(tick(&table, &mut state, &[0, 0], &mut [0; 4]), Ok(1));
    let before = state.clone();
    assert_eq!(tick(&table, &mut state, &[0, 0], &mut [0; 4]), Err(No { number: 12, place: 1 }));
    assert_eq!(state, before);
}

fn refused(text: &str) -> (u64, u64) {
    let refusal = file::read(text.as_bytes()).unwrap_err();
    (refusal.number, refusal.place)
}

#[test]
fn files() {
    assert_eq!(refused(""), (2, 1));
    assert_eq!(refused(&PLAN.replacen("period=4", "period=04", 1)), (2, 5));
    assert_eq!(refused(&PLAN.replacen("period=4", "period=0", 1)), (3, 5));
    assert_eq!(refused(&PLAN.replacen("period=4", "period=10000000", 1)), (3, 5));
    assert_eq!(refused(&PLAN.replacen("period=4", "period=1000000000", 1)), (2, 5));
    assert_eq!(refused(&PLAN.replacen("deadline=0", "deadline=00", 1)), (2, 6));
    assert_eq!(refused(&PLAN.replacen("task=2", "task=3", 1)), (3, 11));
    assert_eq!(refused(&PLAN.replacen("processor=2", "processor=3", 1)), (3, 18));
    assert_eq!(refused(&PLAN.replacen("plan=1", "plan=2", 1)), (3, 1));
    assert_eq!(refused(&PLAN.replace('\n', "\r\n")), (2, 1));
    assert_eq!(refused(&format!("{PLAN}\n")), (2, 28));
    assert_eq!(refused(&format!("{PLAN}time=3\n")), (2, 28));
    assert_eq!(refused(&PLAN[..PLAN.len() - 1]), (2, 27));
    assert_eq!(refused("plan=7"), (2, 1));
    assert_eq!(refused(&"9".repeat(8192)), (2, 1));
    assert_eq!(refused(&"9".repeat(8193)), (1, 0));
}

/// Tasks of these steps, everything else as long as it can be.
fn widest(steps: &[u64]) -> Table {
    let mut table = Table { processors: 16, tasks: Vec::new(), rows: Vec::new() };
    for (task, steps) in steps.iter().enumerate() {
        table.tasks.push(Task { period: 1_000_000, deadline: 160_000_000, steps: *steps });
        for step in 0..*steps {
            let row = Row { processor: 16, priority: 255, time: 1_000_000, task, first: step == 0 };
            table.rows.push(row);
        }
    }
    table
}

#[test]
fn as_many_rows_as_there_may_be() {
    // The longest file there is: ten chains of two-digit steps, and the rest short.
    let mut steps = [1; 32];
    steps[..10].fill(10);
    steps[10] = 7;
    let full = widest(&steps);
    let text = file::write(&full);
    assert_eq!((full.rows.len(), text.len()), (128, 6623));
    assert_eq!(file::read(&text), Ok(full));
    // Eight chains of sixteen, and then one more.
    assert_eq!(file::read(&file::write(&widest(&[16; 8]))).unwrap().rows.len(), 128);
    let over = file::write(&widest(&[16, 16, 16, 16, 16, 16, 16, 16, 1]));
    let steps_line = 3 + 8 * (4 + 3 * 16) + 4;
    assert_eq!(file::read(&over), Err(No { number: 4, place: steps_line }));
    // Out of range comes before too many.
    let over = String::from_utf8(over).unwrap().replace("steps=1\n", "steps=17\n");
    assert_eq!(refused(&over), (3, steps_line));
}

#[test]
fn the_clock_ends() {
    let table = paper();
    let mut state = fresh(&table);
    state.clock = LAST_CLOCK - 1;
    assert!(guards::fits(&table, &state));
    assert_eq!(tick(&table, &mut state, &[0, 0], &mut [0; 4]), Ok(LAST_CLOCK));
    let end = Err(No { number: 13, place: LAST_CLOCK });
    assert_eq!(tick(&table, &mut state, &[0, 9], &mut [0; 4]), end);
    assert_eq!(tick(&table, &mut state, &[0], &mut [0; 4]), Err(No { number: 10, place: 2 }));
    assert_eq!(arrive(&table, &mut state, 1), Ok(1));
    assert!(guards::fits(&table, &state));
    state.clock += 1;
    assert!(!guards::fits(&table, &state));
}

#[test]
fn states_that_fit() {
    let table = paper();
    let fit = |change: fn(&mut State)| {
        let mut state = fresh(&table);
        state.clock = 10;
        change(&mut state);
        guards::fits(&table, &state)
    };
    assert!(fit(|_| ()));
    assert!(fit(|s| s.rows[0].released = 10));
    assert!(!fit(|s| s.rows[0].released = 11));
    assert!(fit(|s| (s.rows[0].released, s.rows[0].guard) = (11, 11)));
    assert!(!fit(|s| (s.rows[0].released, s.rows[0].guard) = (12, 11)));
    assert!(!fit(|s| s.rows[0].completed = 1));
    assert!(fit(|s| (s.rows[0].released, s.rows[0].used) = (1, 1)));
    assert!(!fit(|s| (s.rows[0].released, s.rows[0].used) = (1, 2)));
    assert!(!fit(|s| s.rows[0].used = 1));
    assert!(fit(|s| s.rows[0].guard = 14));
    assert!(!fit(|s| s.rows[0].guard = 15));
    assert!(!fit(|s| s.rows[2].released = 1));
    assert!(!fit(|s| (s.rows[1].released, s.rows[1].completed) = (1, 1)));
    assert!(fit(|s| (s.rows[1].released, s.rows[1].completed, s.rows[2].guard) = (1, 1, 11)));
    assert!(!fit(|s| s.clock = u64::MAX));
}

#[test]
fn byte_lists() {
    let mut table = vec![0xAB; TABLE_BYTES + 8];
    assert_eq!(layout::rack_table(PLAN.as_bytes(), &mut table), Answer { number: 0, value: 4 });
    assert_eq!(layout::table_of(&table[..TABLE_BYTES]), Ok(paper()));
    assert_eq!(&table[TABLE_BYTES..], [0xAB; 8]);
    assert_eq!(layout::word(&table, 11), 0xABAB_ABAB_ABAB_ABAB);
    assert_eq!(layout::word(&table, 98 + 12), 0xABAB_ABAB_ABAB_ABAB);
    let short = layout::rack_table(b"", &mut table[..TABLE_BYTES - 1]);
    assert_eq!(short, Answer { number: 7, value: 3856 });
    let table = &table[..TABLE_BYTES];
    let mut state = vec![0xCD; STATE_BYTES];
    let refusal = |number| Answer { number, value: 0 };
    assert_eq!(layout::rack_fresh(&table[1..], &mut state[1..]), refusal(5));
    assert_eq!(layout::rack_fresh(table, &mut state[1..]), refusal(14));
    assert_eq!(layout::rack_arrive(table, &mut state, 1), refusal(14));
    assert_eq!(layout::rack_fresh(table, &mut state), Answer { number: 0, value: 0 });
    assert_eq!(&state[8 * 17..], [0xCD; STATE_BYTES - 8 * 17]);
    assert_eq!(layout::rack_arrive(table, &mut state, 2), Answer { number: 0, value: 2 });
    let none = u64::MAX;
    assert_eq!(layout::rack_arrive(table, &mut state, none), Answer { number: 8, value: none });
    let mut released = [9; 6];
    let ticked = layout::rack_tick(table, &mut state, &[1, 0], &mut released);
    assert_eq!((ticked, released), (Answer { number: 0, value: 1 }, [0, 0, 1, 0, 9, 9]));
}
