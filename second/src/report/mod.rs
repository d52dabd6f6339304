//! The report: a list of calls and what it comes to, as one page of HTML with pictures in it.

mod course;
mod draw;
mod drift;
mod page;
mod scale;
mod story;
mod windows;

pub use page::page;
