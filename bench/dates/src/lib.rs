//! The library's calls that write dates, as they are called from C.

pub mod library;
