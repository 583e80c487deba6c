//! The proved library's functions, as include/glykorant.h declares them.

/// What a function answers: number + 256 × value.
#[derive(Clone, Copy, Debug, PartialEq, Eq)]
pub struct Answer {
    pub number: u8,
    pub value: u64,
}

impl From<u64> for Answer {
    fn from(answer: u64) -> Answer {
        Answer {
            number: (answer % 256) as u8,
            value: answer / 256,
        }
    }
}

mod raw {
    extern "C" {
        pub fn tt_table_length() -> usize;
        pub fn tt_state_length() -> usize;
        pub fn tt_compile(
            text: *const u8,
            text_length: usize,
            table: *mut u8,
            length: usize,
        ) -> u64;
        pub fn tt_merge(
            old: *const u8,
            old_length: usize,
            new: *const u8,
            new_length: usize,
            out: *mut u8,
            out_length: usize,
        ) -> u64;
        pub fn tt_write(
            table: *const u8,
            table_length: usize,
            first: *const u8,
            first_length: usize,
            second: *const u8,
            second_length: usize,
            out: *mut u8,
            out_length: usize,
        ) -> u64;
        pub fn tt_productions(table: *const u8, length: usize) -> u64;
        pub fn tt_calls(table: *const u8, length: usize, production: usize) -> u64;
        pub fn tt_parameters(
            table: *const u8,
            length: usize,
            production: usize,
            call: usize,
        ) -> u64;
        pub fn tt_name(
            table: *const u8,
            table_length: usize,
            first: *const u8,
            first_length: usize,
            second: *const u8,
            second_length: usize,
            production: usize,
            call: usize,
        ) -> u64;
        pub fn tt_parameter(
            table: *const u8,
            table_length: usize,
            first: *const u8,
            first_length: usize,
            second: *const u8,
            second_length: usize,
            production: usize,
            call: usize,
            parameter: usize,
        ) -> u64;
        pub fn tt_fresh(state: *mut u8, length: usize) -> u64;
        pub fn tt_match(
            table: *const u8,
            table_length: usize,
            maps: *const u8,
            maps_length: usize,
            time: u32,
            state: *mut u8,
            state_length: usize,
            record: *const u8,
            record_length: usize,
            order: u8,
        ) -> u64;
    }
}

// Each function takes any bytes of any length (its contract has no `requires`), reads and writes
// only inside the lent slices, and keeps no pointer. So each call below is safe.

pub fn table_length() -> usize {
    unsafe { raw::tt_table_length() }
}

pub fn state_length() -> usize {
    unsafe { raw::tt_state_length() }
}

pub fn compile(text: &[u8], table: &mut [u8]) -> Answer {
    unsafe { raw::tt_compile(text.as_ptr(), text.len(), table.as_mut_ptr(), table.len()) }.into()
}

pub fn merge(old: &[u8], new: &[u8], out: &mut [u8]) -> Answer {
    unsafe {
        raw::tt_merge(
            old.as_ptr(),
            old.len(),
            new.as_ptr(),
            new.len(),
            out.as_mut_ptr(),
            out.len(),
        )
    }
    .into()
}

pub fn write(table: &[u8], texts: [&[u8]; 2], out: &mut [u8]) -> Answer {
    let [first, second] = texts;
    unsafe {
        raw::tt_write(
            table.as_ptr(),
            table.len(),
            first.as_ptr(),
            first.len(),
            second.as_ptr(),
            second.len(),
            out.as_mut_ptr(),
            out.len(),
        )
    }
    .into()
}

pub fn productions(table: &[u8]) -> Answer {
    unsafe { raw::tt_productions(table.as_ptr(), table.len()) }.into()
}

pub fn calls(table: &[u8], production: usize) -> Answer {
    unsafe { raw::tt_calls(table.as_ptr(), table.len(), production) }.into()
}

pub fn parameters(table: &[u8], production: usize, call: usize) -> Answer {
    unsafe { raw::tt_parameters(table.as_ptr(), table.len(), production, call) }.into()
}

pub fn name(table: &[u8], texts: [&[u8]; 2], production: usize, call: usize) -> Answer {
    let [first, second] = texts;
    unsafe {
        raw::tt_name(
            table.as_ptr(),
            table.len(),
            first.as_ptr(),
            first.len(),
            second.as_ptr(),
            second.len(),
            production,
            call,
        )
    }
    .into()
}

pub fn parameter(
    table: &[u8],
    texts: [&[u8]; 2],
    production: usize,
    call: usize,
    parameter: usize,
) -> Answer {
    let [first, second] = texts;
    unsafe {
        raw::tt_parameter(
            table.as_ptr(),
            table.len(),
            first.as_ptr(),
            first.len(),
            second.as_ptr(),
            second.len(),
            production,
            call,
            parameter,
        )
    }
    .into()
}

pub fn fresh(state: &mut [u8]) -> Answer {
    unsafe { raw::tt_fresh(state.as_mut_ptr(), state.len()) }.into()
}

pub fn match_event(
    table: &[u8],
    maps: &[u8],
    time: u32,
    state: &mut [u8],
    record: &[u8],
    order: u8,
) -> Answer {
    unsafe {
        raw::tt_match(
            table.as_ptr(),
            table.len(),
            maps.as_ptr(),
            maps.len(),
            time,
            state.as_mut_ptr(),
            state.len(),
            record.as_ptr(),
            record.len(),
            order,
        )
    }
    .into()
}
