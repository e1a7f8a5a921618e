//! Ours: the source's short vector of axes, as a plain `Vec`.

pub type InlineVec<T> = Vec<T>;
