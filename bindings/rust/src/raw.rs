//! The buffers and the foreign functions (include/planner.h). Safe for every input and for buffers of every length; `Planner` lends them at
//! their listed lengths.

use std::ffi::{c_char, CStr};

/// What the call gives back.
#[repr(C)]
#[derive(Clone, Copy, Debug, PartialEq, Eq)]
pub struct Given {
    pub refused: u8,
    pub last: u8,
    pub sealed: u8,
    pub at: usize,
    pub nodes: usize,
    pub rows: usize,
    pub answered: usize,
}

/// Bytes of the buffer that a listing is made in.
pub const LISTING: usize = 262_144;

/// Hands the list of buffers to another macro: name, element and listed length of each.
macro_rules! buffers {
    ($used:ident) => {
        $used! {
            raw_conditions: [u16; 4096],
            raw_weights: [u64; 4096],
            thresholds: [[u16; 2]; 1024],
            bounds: [i64; 1024],
            row_conditions: [u16; 4096],
            row_weights: [u64; 4096],
            rows: [[u16; 3]; 1024],
            guard_bounds: [i64; 1024],
            guard_nodes: [u16; 1024],
            nodes: [[u16; 3]; 4096],
            edges: [[u64; 2]; 4096],
            links: [u16; 2048],
            figures: [[i64; 4]; 1024],
            cursors: [[usize; 5]; 1024],
            sure: [u64; 64],
            never: [u64; 64],
            search: [u64; 4096],
            gcds: [u64; 1025],
            node_queue: [u16; 4096],
            row_queues: [[u16; 4]; 1024],
            answers: [[u16; 2]; 64],
        }
    };
}

macro_rules! declare {
    ($($name:ident: [$element:ty; $length:literal],)*) => {
        /// Every lent buffer.
        #[derive(Clone, PartialEq)]
        pub struct Work {
            $(pub $name: Box<[$element]>,)*
        }

        impl Work {
            /// Buffers of the listed lengths.
            pub fn new() -> Self {
                Self { $($name: vec![<$element>::default(); $length].into(),)* }
            }
        }

        extern "C" {
            fn planner_run(input: *const u8, length: usize, $($name: *mut $element, _: usize),*) -> Given;
            fn planner_list(input: *const u8, length: usize, out: *mut u8, _: usize) -> usize;
            fn planner_version() -> *const c_char;
        }

        /// Plans the input.
        pub fn run(input: &[u8], work: &mut Work) -> Given {
            // SAFETY: every pointer comes from a slice with its own length, and the slices are borrowed for the call, those that are
            // written exclusively. The function asks nothing else, and what it takes and gives back has no invalid values.
            unsafe {
                planner_run(
                    input.as_ptr(),
                    input.len(),
                    $(work.$name.as_mut_ptr(), work.$name.len(),)*
                )
            }
        }
    };
}

buffers!(declare);

/// Lists the input's file in `out`: how many bytes the listing has, 0 if `out` is shorter than `LISTING`.
pub fn list(input: &[u8], out: &mut [u8]) -> usize {
    // SAFETY: as of `run`.
    unsafe { planner_list(input.as_ptr(), input.len(), out.as_mut_ptr(), out.len()) }
}

/// The version of the linked library.
pub fn version() -> &'static CStr {
    // SAFETY: it takes nothing and gives back a text that stays.
    unsafe { CStr::from_ptr(planner_version()) }
}
