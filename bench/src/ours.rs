//! Sledkindle's exported calls: see include/sledkindle.h.

#[repr(C)]
#[derive(Clone, Copy, Debug, PartialEq, Eq)]
pub struct Answer {
    pub number: u32,
    pub place: u32,
}

#[repr(C)]
#[derive(Clone, Copy, Debug, PartialEq, Eq)]
pub struct Ran {
    pub number: u32,
    pub place: u32,
    pub outcome: u32,
    pub units: u32,
}

mod c {
    use super::{Answer, Ran};

    extern "C" {
        pub fn sledkindle_read(file: *const u8, file_len: usize) -> Answer;
        pub fn sledkindle_check(
            file: *const u8,
            file_len: usize,
            marking: *const u8,
            marking_len: usize,
        ) -> Answer;
        pub fn sledkindle_infer(
            file: *const u8,
            file_len: usize,
            marking: *mut u8,
            marking_len: usize,
        ) -> Answer;
        pub fn sledkindle_run(
            file: *const u8,
            file_len: usize,
            marking: *const u8,
            marking_len: usize,
            fuel: u32,
            memory: *mut u64,
            memory_len: usize,
        ) -> Ran;
    }
}

pub fn read(file: &[u8]) -> Answer {
    unsafe { c::sledkindle_read(file.as_ptr(), file.len()) }
}

pub fn check(file: &[u8], marking: &[u8]) -> Answer {
    unsafe { c::sledkindle_check(file.as_ptr(), file.len(), marking.as_ptr(), marking.len()) }
}

pub fn infer(file: &[u8], marking: &mut [u8]) -> Answer {
    unsafe {
        c::sledkindle_infer(
            file.as_ptr(),
            file.len(),
            marking.as_mut_ptr(),
            marking.len(),
        )
    }
}

pub fn run(file: &[u8], marking: &[u8], fuel: u32, memory: &mut [u64]) -> Ran {
    unsafe {
        c::sledkindle_run(
            file.as_ptr(),
            file.len(),
            marking.as_ptr(),
            marking.len(),
            fuel,
            memory.as_mut_ptr(),
            memory.len(),
        )
    }
}
