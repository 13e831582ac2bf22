//! The tutorial's commands, with the output that it shows.

mod common;

use common::page;

#[test]
fn every_command_prints_what_is_shown() {
    let runs = page::runs("TUTORIAL.md");
    assert!(runs > 15, "{runs} commands");
}
