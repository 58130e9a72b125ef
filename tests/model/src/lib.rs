//! An independent model of the rack's plan library, written from the scope document alone.
//!
//! It exists to be compared with the proved library and to be its measure of speed. It says
//! everything in the plainest way: a reader that takes the line due, fixed points that sum all
//! rows at each step, and a tick that follows the five steps in order.
//!
//! * [`table`]: a plan as counts, tasks and rows; which tables are plans; refusals.
//! * [`file`]: the plan file, read and written.
//! * [`bounds`]: busy lengths, instances, bounds and slacks, in two ways.
//! * [`report`]: the report's text.
//! * [`guards`]: the state, when it fits, and the three calls on it.
//! * [`layout`]: tables and states as byte lists, and the five calls of the C boundary.

pub mod bounds;
pub mod file;
pub mod guards;
pub mod layout;
pub mod report;
pub mod table;

pub use table::{No, Row, Table, Task};
