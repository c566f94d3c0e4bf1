//! The program's command line: statuses, words, and a line for every call.
mod program;

use program::{run, Folder, Q};

const PARTS: [&str; 8] = ["check", "show", "picture", "run", "join", "best", "small-plans", "serve"];

#[test]
fn help_for_the_whole_and_for_each_part() {
    let (status, whole, _) = run(&["--help"], b"");
    assert_eq!(status, 0);
    for part in PARTS {
        assert!(whole.contains(&format!("conductor {part}")), "{part}");
        for words in [[part, "--help"], [part, "-h"], ["help", part]] {
            let (status, text, words) = run(&words, b"");
            assert!(status == 0 && text.starts_with(&format!("conductor {part}")) && words.is_empty(), "{part}: {text}");
        }
    }
}

#[test]
fn what_is_wrong_with_a_command_line_is_said() {
    for (words, why) in [
        (&[][..], "what is to be done"),
        (&["fly"], "there is no part `fly`"),
        (&["check"], "it takes PLAN"),
        (&["check", "a", "b"], "it takes PLAN"),
        (&["small-plans", "a"], "it takes no operand"),
        (&["join", "a"], "it takes EAST and WEST"),
        (&["check", "a", "--site"], "`--site` wants a value"),
        (&["check", "a", "--sites=b"], "there is no option `--sites`"),
        (&["check", "a", "-x"], "there is no option `-x`"),
        (&["check", "a", "--site=b", "--site=c"], "`--site` is given twice"),
        (&["check", "-", "--site", "-"], "only one of the texts"),
        (&["join", "-", "-"], "only one of the texts"),
        (&["run", "a", "--quiet=yes"], "`--quiet` takes no value"),
        (&["check", "/nowhere/plan"], "/nowhere/plan cannot be read"),
        (&["best", "-", "--budget", "many"], "`--budget many` is no number"),
        (&["serve", "-", "--listen", "here"], "`--listen here` cannot be listened to"),
    ] {
        let (status, out, said) = run(words, Q.as_bytes());
        assert!(status == 2 && out.is_empty() && said.contains(why), "{words:?}: {status} {out} {said}");
    }
}

#[test]
fn a_plan_is_taken_or_refused_with_its_line() {
    let (status, out, said) = run(&["check", "-"], Q.as_bytes());
    assert_eq!((status, out.as_str(), said.as_str()), (0, "standard input: taken: 2 drones, 7 stops, 1 dependency\n", ""));
    for (from, to, said) in [
        ("go=6@1", "go=70000@1", "refused with 4: a number is outside its range\n    line 6: go=70000@1"),
        ("go=6@1", "go=6@1\r", "refused with 2: a line is malformed, out of order, missing or surplus\n    line 6: go=6@1\\r"),
        ("end=plan\n", "", "line 14 is missing: the text ends before it"),
        ("end=plan\n", "end=plan", "line 14: end=plan (the text ends in it, without a line feed)"),
        ("end=plan\n", "end=plan\nend=plan\n", "line 15: end=plan"),
        ("name=survey-quad-east-2", "name=SURVEY-quad-east-1", "refused with 5: a name is that of an earlier drone\n    line 9: name=SURVEY-quad-east-1"),
        ("name=survey-quad-east-2", "name=a-name-of-twenty-five-byt", "refused with 3"),
        ("go=3@0", "go=3@1", "refused with 7: a drone's first stop is not at time 0\n    survey-quad-east-2 at its stop 0, line 11: go=3@1"),
        ("go=4@5", "go=4@4", "refused with 8: a stop's time is not after that of the stop before it\n    survey-quad-east-2 at its stop 2, line 13: go=4@4"),
        ("go=4@5", "go=5@5", "refused with 9: a stop has the location of the stop before it\n    survey-quad-east-2 at its stop 2, line 13: go=5@5"),
        ("go=5@4", "go=5@3", "survey-quad-east-1 at its stop 2, line 7: go=5@2\n    survey-quad-east-2 at its stop 1, line 12: go=5@3"),
    ] {
        let (status, out, words) = run(&["check", "-"], Q.replace(from, to).as_bytes());
        assert!(status == 1 && out.is_empty() && words.contains(said), "{to}: {words}");
    }
    let (status, _, said) = run(&["check", "-"], &[b'a'; 65_537]);
    assert!(status == 1 && said.contains("refused with 1: the text is longer than 65,536 bytes"), "{said}");
}

#[test]
fn a_plan_with_a_site() {
    let folder = Folder::new();
    let site = folder.file("site", "site=1\npairs=1\nnear=5,6\nend=site\n");
    let bad = folder.file("bad", "site=1\npairs=1\nnear=6,5\nend=site\n");
    let (status, out, _) = run(&["check", "-", "--site", &site], Q.as_bytes());
    assert_eq!((status, out.as_str()), (0, "standard input: taken: 2 drones, 7 stops, 2 dependencies, 1 near pair\n"));
    let (status, _, said) = run(&["check", "-", "--site", &bad], Q.as_bytes());
    assert!(status == 1 && said.contains("bad: refused with 14") && said.contains("line 3: near=6,5"), "{said}");
    let (_, out, _) = run(&["show", "-", "--site", &site], Q.as_bytes());
    assert!(out.contains("the near crossings 6 and 5") && out.contains("ring"), "{out}");
}

#[test]
fn what_is_shown_of_flight_q() {
    let folder = Folder::new();
    let calls = folder.file("calls", "grant=0\ngrant=1\n");
    let (status, out, said) = run(&["show", "-", "--calls", &calls], Q.as_bytes());
    assert_eq!(status, 0);
    assert!(said.contains("calls: grant=1: refused with 23: survey-quad-east-2 must wait: survey-quad-east-1 goes first at crossing 5"), "{said}");
    for part in [
        "cost 8; the last drone lands in at most 5 rounds",
        "drone 0  survey-quad-east-1\n    4 stops: 1@0 6@1 5@2 2@3\n    at stop 0, crossing 1; under way to stop 1, crossing 6",
        "must wait before stop 1, crossing 5: survey-quad-east-1 goes first at crossing 5 and has not reached its stop 3, crossing 2 (dependency 0)",
        "    0  crossing 5: survey-quad-east-1 (stop 2) goes first, survey-quad-east-2 (stop 1) waits; turning it: 2 rounds less",
    ] {
        assert!(out.contains(part), "{part}\n--- in\n{out}");
    }
    let (status, svg, _) = run(&["picture", "-"], Q.as_bytes());
    assert!(status == 0 && svg.starts_with("<svg ") && svg.contains("survey-quad-east-2"));
}

#[test]
fn a_line_for_every_call() {
    let lines = "rounds=0\npreview=0\nprevieW=0\n";
    let calls = "rounds=0\ngrant=1\npreview=0\npreviews=0\npreviews=0,0\nturns=\nturns=0,1\nbest=1\nbest=0\nbest=100000\nturns=0\nrounds=0\npreview=9\npress=none\npress=1\npress=1\nwithdraw=0\nwithdraw=0\narrive=0\nturn=0\ncost=0\n";
    let (status, out, said) = run(&["run", "-"], format!("{Q}{calls}").as_bytes());
    let want = "plan=0\nrounds=5\ngrant=23:0\npreview=0:-2\npreviews=0:-2\npreviews=36\nturns=36\nturns=30\nbest=37:1\nbest=38\nbest=0:6:3:0\nturns=0\nrounds=4\npreview=30\npress=0:0,1\npress=0:1\npress=0:\nwithdraw=0\nwithdraw=25\narrive=25\nturn=35\ncost=0\nend=calls\n";
    assert_eq!((status, out.as_str()), (0, want));
    for words in [
        "grant=1: refused with 23: survey-quad-east-2 must wait: survey-quad-east-1 goes first at crossing 5 and has not reached its stop 3, crossing 2 (dependency 0)",
        "turns=0,1: refused with 30: there is no dependency 1; there are 1",
        "withdraw=0: refused with 25: survey-quad-east-1 is withdrawn",
        "turn=0: refused with 35: dependency 0, at crossing 5 survey-quad-east-2 goes first, survey-quad-east-1 waits: survey-quad-east-1 is withdrawn",
    ] {
        assert!(said.contains(words), "{words}\n--- in\n{said}");
    }
    let (status, out, said) = run(&["run", "-", "--quiet"], format!("{Q}{lines}").as_bytes());
    assert_eq!((status, out.as_str(), said.as_str()), (1, "plan=0\nrounds=5\npreview=0:-2\ncall=2\n", ""));
}

#[test]
fn a_ground_station_can_hold_it_open() {
    use std::io::{BufRead, BufReader, Write};
    use std::process::{Command, Stdio};
    let folder = Folder::new();
    let plan = folder.file("q", Q);
    let mut child =
        Command::new(program::PROGRAM).args(["run", &plan]).stdin(Stdio::piped()).stdout(Stdio::piped()).stderr(Stdio::null()).spawn().expect("the program");
    let (mut input, mut out) = (child.stdin.take().expect("in"), BufReader::new(child.stdout.take().expect("out")));
    let mut line = String::new();
    out.read_line(&mut line).expect("read");
    for (call, answer) in [("cost=0\n", "cost=8\n"), ("grant=1\n", "grant=23:0\n"), ("turn=0\n", "turn=0\n"), ("grant=1\n", "grant=0\n")] {
        input.write_all(call.as_bytes()).expect("written");
        line.clear();
        out.read_line(&mut line).expect("read"); // would wait for ever if the answer came at the end
        assert_eq!(line, answer);
    }
    drop(input);
    line.clear();
    out.read_line(&mut line).expect("read");
    assert!(line == "end=calls\n" && child.wait().expect("its end").success());
}

#[test]
fn two_plans_joined() {
    let folder = Folder::new();
    let east = folder.file("east", "plan=1\nagents=1\nname=East\nstops=3\ngo=1@0\ngo=5@1\ngo=2@2\nend=plan\n");
    let west = folder.file("west", "plan=2\nagents=1\nname=west\nstops=3\ngo=3@0@0\ngo=5@4@2\ngo=4@5@1\nend=plan\n");
    let (status, both, said) = run(&["join", &east, &west], b"");
    assert_eq!((status, said.as_str()), (0, ""));
    assert_eq!(both, "plan=2\nagents=2\nname=east\nstops=3\ngo=1@0@0\ngo=5@1@1\ngo=2@2@1\nname=west\nstops=3\ngo=3@0@0\ngo=5@4@2\ngo=4@5@1\nend=plan\n");
    assert_eq!(run(&["check", "-"], both.as_bytes()).0, 0);
    let (status, out, said) = run(&["join", &east, &east], b"");
    assert!(status == 1 && out.is_empty() && said.contains("refused with 5") && said.contains("of the joined text line 8: name=east"), "{said}");
    let late = folder.file("late", "plan=1\nagents=1\nname=west\nstops=3\ngo=3@0\ngo=5@2\ngo=4@5\nend=plan\n");
    let (status, _, said) = run(&["join", &east, &late], b"");
    assert!(status == 1 && said.contains("east at its stop 1, line 6: go=5@1\n    west at its stop 1, line 11: go=5@2"), "{said}");
}

#[test]
fn the_best_order_of_flight_q() {
    let (status, out, _) = run(&["best", "-", "--budget", "10"], Q.as_bytes());
    let want = "cost 6 in place of 8, 2 rounds less, by turning 1 dependency (3 choices entered)\n    0  at crossing 5 survey-quad-east-2 goes first, survey-quad-east-1 waits\nturns=0\n";
    assert_eq!((status, out.as_str()), (0, want));
    let (status, out, said) = run(&["best", "-", "--budget", "2"], Q.as_bytes());
    assert!(status == 1 && out.is_empty() && said.contains("refused with 37"), "{said}");
    let (status, _, said) = run(&["best", "-", "--budget", "100001"], Q.as_bytes());
    assert!(status == 1 && said.contains("refused with 38"), "{said}");
    let folder = Folder::new();
    let calls = folder.file("calls", "turn=0\n");
    let (status, out, _) = run(&["best", "-", "--calls", &calls], Q.as_bytes());
    assert!(status == 0 && out.starts_with("the order in force is the best: cost 6"), "{out}");
}

#[test]
fn every_small_plan() {
    let (status, out, _) = run(&["small-plans"], b"");
    assert_eq!((status, out.matches("plan=1\n").count(), out.matches("end=plan\n").count()), (0, 378, 378));
    let known = concat!(env!("CARGO_MANIFEST_DIR"), "/../../crates/every_small_plan/stdout");
    assert!(out == std::fs::read_to_string(known).expect("the proved program's output"));
}

#[test]
fn whoever_stops_reading_is_no_fault() {
    use std::process::{Command, Stdio};
    let mut child = Command::new(program::PROGRAM).arg("small-plans").stdout(Stdio::piped()).stderr(Stdio::piped()).spawn().expect("the program");
    drop(child.stdout.take());
    let output = child.wait_with_output().expect("its end");
    assert!(!String::from_utf8_lossy(&output.stderr).contains("panicked"), "{output:?}");
}

#[test]
fn the_manual_has_every_part_option_and_call_line() {
    let manual = std::fs::read_to_string(concat!(env!("CARGO_MANIFEST_DIR"), "/man/conductor.1")).expect("the manual").replace('\\', "");
    for part in PARTS {
        assert!(manual.contains(&format!("conductor {part}")), "{part}");
        let help = run(&[part, "--help"], b"").1;
        for word in help.split_whitespace().map(|word| word.trim_matches(['[', ']', '`', ',', '.'])).filter(|word| word.starts_with("--") && *word != "--help")
        {
            assert!(manual.contains(word), "{word} of {part}");
        }
    }
    for line in run(&["run", "--help"], b"").1.lines().filter(|line| line.starts_with("  ") && line.contains('=')) {
        let key = line.trim().split_once('=').expect("a call").0;
        assert!(manual.contains(&format!(".B {key}=")), "{key}");
    }
}
