//! The second program: the rules of docs/RULES.md in plain Rust, told in other terms than the core
//! tells them.

pub mod answer;
pub mod answerer;
pub mod call;
pub mod compare;
pub mod dice;
pub mod exchange;
pub mod lists;
pub mod masters;
pub mod message;
pub mod nearest;
pub mod refusal;
pub mod report;
pub mod servo;
pub mod settings;
pub mod text;
pub mod trial;
pub mod unit;
pub mod watch;
