//! The functions of the C interface, for slices of any lengths: one that is too short is answered so by the archive.

mod c {
    extern "C" {
        pub fn farnkuppel_interface() -> u32;
        /// The desk's farnkuppel_interface, as build.rs calls it.
        pub fn farnkuppel_desk_interface() -> u32;
        pub fn farnkuppel_load(
            file: *const u8,
            file_length: usize,
            reader: u32,
            state: *mut i32,
            state_length: usize,
            answer: *mut u32,
            answer_length: usize,
        ) -> u32;
        pub fn farnkuppel_fix(
            state: *mut i32,
            state_length: usize,
            serial: u32,
            north: f32,
            east: f32,
            down: f32,
            answer: *mut u32,
            answer_length: usize,
            command: *mut f32,
            command_length: usize,
        ) -> u32;
        pub fn farnkuppel_write(
            state: *const i32,
            state_length: usize,
            version: u32,
            file: *mut u8,
            file_length: usize,
            answer: *mut u32,
            answer_length: usize,
        ) -> u32;
        pub fn farnkuppel_distances(
            state: *const i32,
            state_length: usize,
            table: *mut u32,
            table_length: usize,
            answer: *mut u32,
            answer_length: usize,
        ) -> u32;
        pub fn farnkuppel_distance(
            state: *const i32,
            state_length: usize,
            answer: *mut u32,
            answer_length: usize,
        ) -> u32;
        pub fn farnkuppel_refusal(file: *const u8, length: usize, reader: u32) -> u32;
        pub fn farnkuppel_check(
            file: *const u8,
            file_length: usize,
            reader: u32,
            answer: *mut u32,
            answer_length: usize,
        ) -> u32;
        pub fn farnkuppel_notes(file: *const u8, file_length: usize, answer: *mut u32, answer_length: usize) -> u32;
        pub fn farnkuppel_note(
            file: *const u8,
            file_length: usize,
            number: u32,
            note: *mut u8,
            note_length: usize,
            answer: *mut u32,
            answer_length: usize,
        ) -> u32;
        pub fn farnkuppel_strips(state: *const i32, state_length: usize, answer: *mut u32, answer_length: usize)
            -> u32;
        pub fn farnkuppel_strip(
            state: *const i32,
            state_length: usize,
            number: u32,
            answer: *mut u32,
            answer_length: usize,
        ) -> u32;
    }
}

/// The interfaces that the autopilot's archive and the desk's have.
pub fn interfaces() -> [u32; 2] {
    // SAFETY: they take nothing.
    unsafe { [c::farnkuppel_interface(), c::farnkuppel_desk_interface()] }
}

pub fn load(file: &[u8], reader: u32, state: &mut [i32], answer: &mut [u32]) -> u32 {
    // SAFETY: every pointer comes with the length of its slice, and the slices are apart.
    unsafe {
        c::farnkuppel_load(
            file.as_ptr(),
            file.len(),
            reader,
            state.as_mut_ptr(),
            state.len(),
            answer.as_mut_ptr(),
            answer.len(),
        )
    }
}

pub fn fix(state: &mut [i32], serial: u32, fix: [f32; 3], answer: &mut [u32], command: &mut [f32]) -> u32 {
    // SAFETY: every pointer comes with the length of its slice, and the slices are apart.
    unsafe {
        c::farnkuppel_fix(
            state.as_mut_ptr(),
            state.len(),
            serial,
            fix[0],
            fix[1],
            fix[2],
            answer.as_mut_ptr(),
            answer.len(),
            command.as_mut_ptr(),
            command.len(),
        )
    }
}

pub fn write(state: &[i32], version: u32, file: &mut [u8], answer: &mut [u32]) -> u32 {
    // SAFETY: every pointer comes with the length of its slice, and the slices are apart.
    unsafe {
        c::farnkuppel_write(
            state.as_ptr(),
            state.len(),
            version,
            file.as_mut_ptr(),
            file.len(),
            answer.as_mut_ptr(),
            answer.len(),
        )
    }
}

pub fn distances(state: &[i32], table: &mut [u32], answer: &mut [u32]) -> u32 {
    // SAFETY: every pointer comes with the length of its slice, and the slices are apart.
    unsafe {
        c::farnkuppel_distances(
            state.as_ptr(),
            state.len(),
            table.as_mut_ptr(),
            table.len(),
            answer.as_mut_ptr(),
            answer.len(),
        )
    }
}

pub fn distance(state: &[i32], answer: &mut [u32]) -> u32 {
    // SAFETY: every pointer comes with the length of its slice, and the slices are apart.
    unsafe { c::farnkuppel_distance(state.as_ptr(), state.len(), answer.as_mut_ptr(), answer.len()) }
}

pub fn refusal(file: &[u8], reader: u32) -> u32 {
    // SAFETY: the pointer comes with the length of its slice.
    unsafe { c::farnkuppel_refusal(file.as_ptr(), file.len(), reader) }
}

pub fn check(file: &[u8], reader: u32, answer: &mut [u32]) -> u32 {
    // SAFETY: every pointer comes with the length of its slice, and the slices are apart.
    unsafe { c::farnkuppel_check(file.as_ptr(), file.len(), reader, answer.as_mut_ptr(), answer.len()) }
}

pub fn notes(file: &[u8], answer: &mut [u32]) -> u32 {
    // SAFETY: every pointer comes with the length of its slice, and the slices are apart.
    unsafe { c::farnkuppel_notes(file.as_ptr(), file.len(), answer.as_mut_ptr(), answer.len()) }
}

pub fn note(file: &[u8], number: u32, note: &mut [u8], answer: &mut [u32]) -> u32 {
    // SAFETY: every pointer comes with the length of its slice, and the slices are apart.
    unsafe {
        c::farnkuppel_note(
            file.as_ptr(),
            file.len(),
            number,
            note.as_mut_ptr(),
            note.len(),
            answer.as_mut_ptr(),
            answer.len(),
        )
    }
}

pub fn strips(state: &[i32], answer: &mut [u32]) -> u32 {
    // SAFETY: every pointer comes with the length of its slice, and the slices are apart.
    unsafe { c::farnkuppel_strips(state.as_ptr(), state.len(), answer.as_mut_ptr(), answer.len()) }
}

pub fn strip(state: &[i32], number: u32, answer: &mut [u32]) -> u32 {
    // SAFETY: every pointer comes with the length of its slice, and the slices are apart.
    unsafe { c::farnkuppel_strip(state.as_ptr(), state.len(), number, answer.as_mut_ptr(), answer.len()) }
}
