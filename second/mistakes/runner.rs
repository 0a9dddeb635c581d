//! The root of a library with the reader and the runner of vectors, built once
//! from the sources as they are. It has no checker.

mod answer;
pub mod calls;

pub mod vectors {
    pub mod file;
}
