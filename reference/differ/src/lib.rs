//! The differential run and the benchmark: the library under test, linked as a static archive, beside the second
//! implementation.

pub mod arguments;
pub mod calls;
pub mod cover;
pub mod damaged;
pub mod directories;
pub mod far;
pub mod guarded;
pub mod headers;
pub mod histories;
pub mod library;
pub mod measure;
pub mod naming;
pub mod orders;
pub mod page;
pub mod pair;
pub mod plot;
pub mod points;
pub mod processor;
pub mod sparse;
pub mod workload;
pub mod worst;
