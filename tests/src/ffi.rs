//! The unit's C library behind safe functions.
//!
//! With the feature `linked` they call the library. Without it the plain linear
//! implementation answers, so that the test program can be tried by itself.

#[cfg(feature = "linked")]
mod library {
    use crate::reply::PostReply;

    extern "C" {
        fn pgb_check(block: *const u8, len: usize) -> u32;
        fn pgb_sheet(
            block: *const u8,
            len: usize,
            stage: usize,
            buffer: *mut u16,
            room: usize,
        ) -> u32;
        fn pgb_post(block: *const u8, len: usize, stage: usize, name: usize) -> PostReply;
    }

    pub const ANSWERED_BY: &str = "the unit's C library";

    pub fn check(block: &[u8]) -> u32 {
        // SAFETY: a slice is `len` bytes that can be read.
        unsafe { pgb_check(block.as_ptr(), block.len()) }
    }

    pub fn sheet(block: &[u8], stage: usize, buffer: &mut [u16]) -> u32 {
        // SAFETY: both slices are as long as told, and `buffer` is lent to this call alone.
        unsafe {
            pgb_sheet(
                block.as_ptr(),
                block.len(),
                stage,
                buffer.as_mut_ptr(),
                buffer.len(),
            )
        }
    }

    pub fn post(block: &[u8], stage: usize, name: usize) -> PostReply {
        // SAFETY: a slice is `len` bytes that can be read.
        unsafe { pgb_post(block.as_ptr(), block.len(), stage, name) }
    }
}

#[cfg(not(feature = "linked"))]
mod library {
    use crate::linear;
    use crate::reply::{post_reply, word, PostReply};

    pub const ANSWERED_BY: &str = "a stand-in, NOT the unit (built without the feature `linked`)";

    pub fn check(block: &[u8]) -> u32 {
        word(linear::check(block))
    }

    pub fn sheet(block: &[u8], stage: usize, buffer: &mut [u16]) -> u32 {
        word(linear::sheet(block, stage, buffer))
    }

    pub fn post(block: &[u8], stage: usize, name: usize) -> PostReply {
        post_reply(linear::post(block, stage, name))
    }
}

pub use library::{check, post, sheet, ANSWERED_BY};
