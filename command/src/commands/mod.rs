//! The subcommands, one module each.

pub mod build;
pub mod check;
pub mod compare;
pub mod from_aut;
pub mod pairs;
pub mod show;
pub mod steps;
pub mod to_aut;
