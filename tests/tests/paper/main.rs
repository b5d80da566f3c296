//! The library under test against the papers, a module for each subject. That is the model, or the archives where APOLLO_LIB names
//! their folder.

mod blames;
mod commit;
mod common;
mod digest;
mod equivocation;
mod fetch;
mod marks;
mod refusals;
mod rotation;
mod search;
mod sheet;
