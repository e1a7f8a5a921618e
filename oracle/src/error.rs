//! Ours: the two errors of the source that can arise here, under the source's names.

#[derive(Clone, Copy, Debug, Eq, PartialEq)]
pub enum StridedError {
    StrideLengthMismatch,
    OffsetOverflow,
}

pub type Result<T> = core::result::Result<T, StridedError>;
