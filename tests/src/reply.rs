//! The replies of the three services, and the form that the C library gives them.

use std::fmt::{self, Display};
use std::mem::{align_of, offset_of, size_of};

/// A refusal: its number in the paper's table, and its place.
#[derive(Clone, Copy, PartialEq, Eq, Debug)]
pub struct Refusal {
    pub number: u16,
    pub place: u16,
}

/// Where a post stands at a stage.
#[derive(Clone, Copy, PartialEq, Eq, Debug)]
pub enum Standing {
    Waiting,
    OnContour { left: u16, right: u16 },
    Covered { by: u16 },
}

/// The posts between which a post was fitted: the first and the last of its run.
/// A post without a run, or one that waits, has itself at both ends.
#[derive(Clone, Copy, PartialEq, Eq, Debug)]
pub struct Fit {
    pub left: u16,
    pub right: u16,
}

/// A post's record at a stage.
#[derive(Clone, Copy, PartialEq, Eq, Debug)]
pub struct Record {
    pub x: u16,
    pub y: u16,
    pub standing: Standing,
    pub fit: Fit,
}

/// A post's record as the C library returns it.
#[repr(C)]
#[derive(Clone, Copy, PartialEq, Eq, Debug, Default)]
pub struct PostReply {
    pub reply: u32,
    pub x: u16,
    pub y: u16,
    pub standing: u16,
    pub first: u16,
    pub second: u16,
    pub fit_left: u16,
    pub fit_right: u16,
}

/// What header.c asserts of the C struct.
const _: () = {
    assert!(size_of::<PostReply>() == 20 && align_of::<PostReply>() == 4);
    assert!(offset_of!(PostReply, reply) == 0);
    assert!(offset_of!(PostReply, x) == 4 && offset_of!(PostReply, y) == 6);
    assert!(offset_of!(PostReply, standing) == 8);
    assert!(offset_of!(PostReply, first) == 10 && offset_of!(PostReply, second) == 12);
    assert!(offset_of!(PostReply, fit_left) == 14 && offset_of!(PostReply, fit_right) == 16);
};

impl Display for PostReply {
    fn fmt(&self, f: &mut fmt::Formatter) -> fmt::Result {
        let reply = readable(self.reply);
        let standing = [self.standing, self.first, self.second];
        write!(f, "{reply} at ({}, {}) {standing:?}", self.x, self.y)?;
        write!(f, " between {} and {}", self.fit_left, self.fit_right)
    }
}

impl PostReply {
    /// The ends that it tells.
    pub fn fit(&self) -> Fit {
        Fit {
            left: self.fit_left,
            right: self.fit_right,
        }
    }
}

/// The reply of check and sheet as the C library returns it: the number (0 when
/// accepted) times 65,536, and the value or the place.
pub fn word(reply: Result<u16, Refusal>) -> u32 {
    match reply {
        Ok(value) => u32::from(value),
        Err(refusal) => u32::from(refusal.number) << 16 | u32::from(refusal.place),
    }
}

/// A reply word in readable form.
pub fn readable(word: u32) -> String {
    match (word >> 16, word & 0xFFFF) {
        (0, value) => format!("accepted {value}"),
        (number, place) => format!("refused {number} {place}"),
    }
}

/// The reply of post as the C library returns it.
pub fn post_reply(reply: Result<Record, Refusal>) -> PostReply {
    let record = match reply {
        Ok(record) => record,
        Err(refusal) => {
            return PostReply {
                reply: word(Err(refusal)),
                ..PostReply::default()
            }
        }
    };
    let (standing, first, second) = match record.standing {
        Standing::Waiting => (0, 0, 0),
        Standing::OnContour { left, right } => (1, left, right),
        Standing::Covered { by } => (2, by, by),
    };
    PostReply {
        reply: 0,
        x: record.x,
        y: record.y,
        standing,
        first,
        second,
        fit_left: record.fit.left,
        fit_right: record.fit.right,
    }
}
