//! The report's text.

use crate::bounds::Bounds;
use crate::table::Table;
use std::fmt::Write;

pub fn report(table: &Table, bounds: &Bounds) -> String {
    let mut text = String::from("report=1\n");
    for (index, row) in bounds.rows.iter().enumerate() {
        let number = index + 1;
        let (busy, instances, bound) = (row.busy, row.instances, row.bound);
        write!(text, "row={number}\nbusy={busy}\ninstances={instances}\nbound={bound}\n").unwrap();
    }
    for (index, (task, chain)) in table.tasks.iter().zip(&bounds.chains).enumerate() {
        let number = index + 1;
        let (bound, deadline, slack) = (chain.bound, task.deadline_in_force(), chain.slack);
        write!(text, "task={number}\nbound={bound}\ndeadline={deadline}\nslack={slack}\n").unwrap();
    }
    for processor in 1..=table.processors {
        let load = table.load(processor);
        write!(text, "processor={processor}\nload={load}\n").unwrap();
    }
    let accepted = u8::from(bounds.accepted);
    write!(text, "accepted={accepted}\n").unwrap();
    text
}
