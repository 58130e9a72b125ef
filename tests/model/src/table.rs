//! The plan as a table, the ranges of its values, and refusals.

pub const MOST_PROCESSORS: u64 = 16;
pub const MOST_TASKS: u64 = 32;
pub const MOST_STEPS: u64 = 16;
pub const MOST_ROWS: usize = 128;
pub const MOST_PERIOD: u64 = 1_000_000;
pub const MOST_DEADLINE: u64 = 160_000_000;
pub const MOST_PRIORITY: u64 = 255;
pub const MOST_TIME: u64 = 1_000_000;

/// A refusal: its number and its place.
#[derive(Clone, Copy, Debug, PartialEq, Eq)]
pub struct No {
    pub number: u64,
    pub place: u64,
}

pub fn no<T>(number: u64, place: u64) -> Result<T, No> {
    Err(No { number, place })
}

/// A chain. A deadline of 0 stands for the period.
#[derive(Clone, Copy, Debug, PartialEq, Eq)]
pub struct Task {
    pub period: u64,
    pub deadline: u64,
    pub steps: u64,
}

/// A step. `task` is the index of its chain, and `first` says whether it opens the chain; both
/// follow from the tasks' steps.
#[derive(Clone, Copy, Debug, PartialEq, Eq)]
pub struct Row {
    pub processor: u64,
    pub priority: u64,
    pub time: u64,
    pub task: usize,
    pub first: bool,
}

/// A plan. Rows and tasks are counted from 0 here, and from 1 in everything that is printed.
#[derive(Clone, Debug, PartialEq, Eq)]
pub struct Table {
    pub processors: u64,
    pub tasks: Vec<Task>,
    pub rows: Vec<Row>,
}

impl Task {
    pub fn deadline_in_force(&self) -> u64 {
        if self.deadline == 0 {
            self.period
        } else {
            self.deadline
        }
    }
}

impl Table {
    pub fn period(&self, row: usize) -> u64 {
        self.tasks[self.rows[row].task].period
    }

    /// The load of a processor, numbered from 1.
    pub fn load(&self, processor: u64) -> u64 {
        self.rows
            .iter()
            .filter(|row| row.processor == processor)
            .map(|row| 1000 * row.time / self.tasks[row.task].period)
            .sum()
    }
}

fn within(value: u64, least: u64, most: u64) -> bool {
    least <= value && value <= most
}

pub fn processors_in_range(processors: u64) -> bool {
    within(processors, 1, MOST_PROCESSORS)
}

pub fn tasks_in_range(tasks: u64) -> bool {
    within(tasks, 1, MOST_TASKS)
}

pub fn task_in_range(task: &Task) -> bool {
    within(task.period, 1, MOST_PERIOD)
        && within(task.deadline, 0, MOST_DEADLINE)
        && within(task.steps, 1, MOST_STEPS)
}

pub fn row_in_range(processors: u64, processor: u64, priority: u64, time: u64) -> bool {
    within(processor, 1, processors) && within(priority, 1, MOST_PRIORITY) && within(time, 1, MOST_TIME)
}
