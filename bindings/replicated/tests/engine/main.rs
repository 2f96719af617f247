//! Tests on real servers, which they start: a primary of PostgreSQL and its synchronous standby, on loopback.

mod bad_input;
mod killed;
mod network;
mod proxy;
#[path = "../../../rust/tests/seed/mod.rs"]
mod seed;
mod servers;
#[path = "../../examples/shards.rs"]
#[allow(dead_code)]
mod shards;
mod steps;
mod waiting;
mod writers;

use servers::Pair;
use std::time::Instant;

type Scenario = fn(&Pair);

// All that one pair of servers survives: the last one leaves two primaries.
const SCENARIOS: [(&str, Scenario); 18] = [
    ("the newer one goes on", writers::the_newer_one_goes_on),
    ("much is written", writers::much_is_written_before_a_sync),
    ("openings race", writers::openings_race),
    (
        "one that was stopped fails",
        writers::one_that_was_stopped_fails,
    ),
    ("ranges move", ranges_move),
    ("cuts are write errors", network::cuts_are_write_errors),
    ("stalls are write errors", network::stalls_are_write_errors),
    ("late requests", network::a_late_request_changes_nothing),
    ("damaged logs", bad_input::damaged_logs_are_refused),
    ("damaged pieces", bad_input::damaged_pieces_are_refused),
    ("other places", bad_input::other_places_are_refused),
    ("damage while open", bad_input::damage_while_open_is_refused),
    ("passwords stay secret", bad_input::passwords_stay_secret),
    (
        "a cancelled wait",
        waiting::a_cancelled_wait_is_a_write_error,
    ),
    (
        "a commit that fails late",
        waiting::a_commit_that_fails_late_is_a_write_error,
    ),
    ("no standby, no answer", waiting::no_standby_no_answer),
    (
        "an emptied setting",
        waiting::an_emptied_setting_is_seen_by_the_next_sync,
    ),
    (
        "a primary without its standby",
        waiting::a_primary_without_its_standby_confirms_nothing,
    ),
];

#[test]
fn scenarios() {
    if let Some(words) = writers::words() {
        return writers::count(&words);
    }
    let pair = Pair::start("scenarios");
    for (name, scenario) in SCENARIOS {
        let start = Instant::now();
        scenario(&pair);
        println!("{name}: {:?}", start.elapsed());
    }
}

fn ranges_move(pair: &Pair) {
    let engine = shards::Engine {
        conninfo: pair.primary.conninfo(),
        servers: dilluvas_replicated::Servers::Standby,
        prefix: "shards ".to_string(),
    };
    let logs = shards::try_all(&engine).unwrap_or_else(|failure| panic!("{failure}: {failure:?}"));
    assert_eq!(logs, 7);
}
