//! How long a grant takes at full tables on the page's way, beside the library's own. In a file of its own: nothing else runs meanwhile.
mod program;

use conductor::Conductor;
use program::{full, post, Folder, Server, Talk};
use std::time::Instant;

/// Grants and arrivals in turns, each accepted one with its time in microseconds.
fn measured(count: usize, mut call: impl FnMut(&str) -> bool) -> (f64, f64, f64) {
    let mut times = Vec::new();
    for drone in (0..64).cycle().take(4_000) {
        let start = Instant::now();
        let accepted = call(&format!("grant={drone}"));
        let time = start.elapsed().as_secs_f64() * 1e6;
        if accepted {
            times.push(time);
            assert!(call(&format!("arrive={drone}")));
        }
        if times.len() == count {
            break;
        }
    }
    times.sort_by(f64::total_cmp);
    (times[0], times[times.len() / 2], times[times.len() * 99 / 100])
}

#[test]
fn how_long_a_grant_takes_at_full_tables() {
    let folder = Folder::new();
    let text = full();
    let plan = folder.file("full", &text);
    let mut field = Conductor::new();
    field.read(text.as_bytes()).expect("taken");
    assert_eq!(field.dependency_count(), 3_968);
    let library = measured(500, |line| match line.split_once('=') {
        Some(("grant", drone)) => field.grant(drone.parse().expect("a drone")).is_ok(),
        Some((_, drone)) => field.arrive(drone.parse().expect("a drone")).is_ok(),
        None => false,
    });
    let served = |words: &[&str]| {
        let server = Server::start(words);
        let mut talk = Talk::new(&server.address).expect("connected");
        measured(500, |line| {
            talk.say(&post(&server.address, line, &format!("X-Conductor-Secret: {}\r\n", server.secret), true)).expect("an answer").status == 200
        })
    };
    let (plain, journaled) = (served(&[&plan]), served(&[&plan, "--journal", &folder.path("journal")]));
    for (what, (least, middle, late)) in [("the library's own", library), ("on the page's way", plain), ("with a journal, on disk", journaled)] {
        println!("latency: a grant at full tables, microseconds, {what}: least {least:.0}, median {middle:.0}, 99 of 100 below {late:.0}");
    }
    assert!(journaled.1 < 500_000.0, "half a second is too long");
}
