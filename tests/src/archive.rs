//! The five functions of the archive. Empty lists are passed as null pointers.

use rack_model::layout::Answer;

mod raw {
    use super::Answer;

    extern "C" {
        pub fn rack_table(file: *const u8, file_len: usize, table: *mut u8, table_len: usize) -> Answer;
        pub fn rack_fresh(table: *const u8, table_len: usize, state: *mut u8, state_len: usize) -> Answer;
        pub fn rack_arrive(
            table: *const u8,
            table_len: usize,
            state: *mut u8,
            state_len: usize,
            task: u64,
        ) -> Answer;
        pub fn rack_tick(
            table: *const u8,
            table_len: usize,
            state: *mut u8,
            state_len: usize,
            done: *const u8,
            done_len: usize,
            released: *mut u8,
            released_len: usize,
        ) -> Answer;
        pub fn plan_report(file: *const u8, file_len: usize, out: *mut u8, out_len: usize) -> Answer;
    }
}

fn read(list: &[u8]) -> *const u8 {
    if list.is_empty() {
        std::ptr::null()
    } else {
        list.as_ptr()
    }
}

fn write(list: &mut [u8]) -> *mut u8 {
    if list.is_empty() {
        std::ptr::null_mut()
    } else {
        list.as_mut_ptr()
    }
}

// Each call below is safe as far as the archive keeps to the lengths it is given: pointers and
// lengths come from Rust slices, and a list that is written is lent to nobody else.

pub fn rack_table(file: &[u8], table: &mut [u8]) -> Answer {
    unsafe { raw::rack_table(read(file), file.len(), write(table), table.len()) }
}

pub fn rack_fresh(table: &[u8], state: &mut [u8]) -> Answer {
    unsafe { raw::rack_fresh(read(table), table.len(), write(state), state.len()) }
}

pub fn rack_arrive(table: &[u8], state: &mut [u8], task: u64) -> Answer {
    unsafe { raw::rack_arrive(read(table), table.len(), write(state), state.len(), task) }
}

pub fn rack_tick(table: &[u8], state: &mut [u8], done: &[u8], released: &mut [u8]) -> Answer {
    let (state_len, released_len) = (state.len(), released.len());
    unsafe {
        raw::rack_tick(
            read(table),
            table.len(),
            write(state),
            state_len,
            read(done),
            done.len(),
            write(released),
            released_len,
        )
    }
}

pub fn plan_report(file: &[u8], out: &mut [u8]) -> Answer {
    unsafe { raw::plan_report(read(file), file.len(), write(out), out.len()) }
}
