//! The claims about cards: what their premises count, when they are due, and what is told where one fails. A module for each subject.

mod catch_up;
mod common;
mod leaders;
mod marks;
mod premises;
mod search;
