//! The plan file: read into a table, and written from one.

use crate::table::*;

pub const MOST_BYTES: usize = 8192;

/// The bytes not yet read, and the number of the line that is due.
struct Lines<'a> {
    rest: &'a [u8],
    line: u64,
}

impl Lines<'_> {
    /// Takes the line `key=value` and its LF. The form is judged first, then the range.
    fn take(&mut self, key: &str, least: u64, most: u64) -> Result<u64, No> {
        let Some((value, rest)) = line_of(key, self.rest) else {
            return no(2, self.line);
        };
        if value < least || value > most {
            return no(3, self.line);
        }
        self.rest = rest;
        self.line += 1;
        Ok(value)
    }
}

/// The value of a line of this key at the front of the bytes, and the bytes behind its LF.
fn line_of<'a>(key: &str, bytes: &'a [u8]) -> Option<(u64, &'a [u8])> {
    let bytes = bytes.strip_prefix(key.as_bytes())?.strip_prefix(b"=")?;
    let digits = bytes.iter().take_while(|byte| byte.is_ascii_digit()).count();
    let (number, rest) = bytes.split_at(digits);
    let rest = rest.strip_prefix(b"\n")?;
    if digits < 1 || digits > 9 || (digits > 1 && number[0] == b'0') {
        return None;
    }
    let value = number.iter().fold(0, |value, digit| 10 * value + u64::from(digit - b'0'));
    Some((value, rest))
}

/// Reads a plan file: refusal 1, then line by line 2, 3 and 4.
pub fn read(file: &[u8]) -> Result<Table, No> {
    if file.len() > MOST_BYTES {
        return no(1, 0);
    }
    let mut lines = Lines { rest: file, line: 1 };
    lines.take("plan", 1, 1)?;
    let processors = lines.take("processors", 1, MOST_PROCESSORS)?;
    let count = lines.take("tasks", 1, MOST_TASKS)?;
    let mut tasks = Vec::with_capacity(count as usize);
    let mut rows = Vec::with_capacity(MOST_ROWS);
    for number in 1..=count {
        lines.take("task", number, number)?;
        let period = lines.take("period", 1, MOST_PERIOD)?;
        let deadline = lines.take("deadline", 0, MOST_DEADLINE)?;
        let line = lines.line;
        let steps = lines.take("steps", 1, MOST_STEPS)?;
        if rows.len() + steps as usize > MOST_ROWS {
            return no(4, line);
        }
        for step in 0..steps {
            let processor = lines.take("processor", 1, processors)?;
            let priority = lines.take("priority", 1, MOST_PRIORITY)?;
            let time = lines.take("time", 1, MOST_TIME)?;
            rows.push(Row { processor, priority, time, task: tasks.len(), first: step == 0 });
        }
        tasks.push(Task { period, deadline, steps });
    }
    if !lines.rest.is_empty() {
        return no(2, lines.line);
    }
    Ok(Table { processors, tasks, rows })
}

/// The file of a table. It doesn't ask whether the table is a plan.
pub fn write(table: &Table) -> Vec<u8> {
    let mut file = String::new();
    let mut line = |key: &str, value: u64| {
        file.push_str(key);
        file.push('=');
        file.push_str(&value.to_string());
        file.push('\n');
    };
    line("plan", 1);
    line("processors", table.processors);
    line("tasks", table.tasks.len() as u64);
    let mut rows = table.rows.iter();
    for (index, task) in table.tasks.iter().enumerate() {
        line("task", index as u64 + 1);
        line("period", task.period);
        line("deadline", task.deadline);
        line("steps", task.steps);
        for row in rows.by_ref().take(task.steps as usize) {
            line("processor", row.processor);
            line("priority", row.priority);
            line("time", row.time);
        }
    }
    file.into_bytes()
}
