//! Nothing lost: calls under load and `kill -9`; a journal cut, damaged, of another plan.
mod program;

use conductor::{Conductor, SAVED};
use program::{number, Folder, Random, Server, Talk, Q};
use std::sync::atomic::{AtomicBool, Ordering};
use std::sync::Mutex;
use std::time::{Duration, Instant};

/// Eight drones that pass six crossings one after the other, with time between them: orders can be turned again and again.
fn plan() -> String {
    let mut text = String::from("plan=1\nagents=8\n");
    for d in 0..8 {
        text += &format!("name=survey-quad-{d}\nstops=14\n");
        for k in 0..14 {
            let place = if k % 2 == 1 && k < 13 { k } else { 100 + 20 * d + k };
            text += &format!("go={place}@{}\n", if k == 0 { 0 } else { 10 * k + 12 * d });
        }
    }
    text + "end=plan\n"
}

/// The calls of a journal, without their numbers and checksums.
fn calls_in(journal: &[u8]) -> Vec<String> {
    let text = String::from_utf8_lossy(journal);
    let after = text.split_once("end=plan\ncalls ").expect("a head").1;
    after.lines().skip(1).map(|line| line.split(' ').nth(1).unwrap_or_default().to_string()).collect()
}

fn made(field: &mut Conductor, call: &str) {
    let (key, value) = call.split_once('=').expect("a call");
    let list = || value.split(',').map(|n| n.parse().expect("a number")).collect::<Vec<u16>>();
    let n = || value.parse::<usize>().expect("a number");
    let accepted = match key {
        "grant" => field.grant(n()).is_ok(),
        "arrive" => field.arrive(n()).is_ok(),
        "withdraw" => field.withdraw(n()).is_ok(),
        "turn" => field.turn(n()).is_ok(),
        "turns" => field.turn_all(&list()).is_ok(),
        "press" => field.press((value != "none").then(n)).is_ok(),
        _ => false,
    };
    assert!(accepted, "{call}");
}

/// The tables as the library leaves and saves them after these calls.
fn tables(text: &str, calls: &[String]) -> Vec<u8> {
    let mut field = Conductor::new();
    field.read(text.as_bytes()).expect("taken");
    calls.iter().for_each(|call| made(&mut field, call));
    let mut bytes = [0; SAVED];
    field.save(&mut bytes);
    bytes.to_vec()
}

fn random_call(random: &mut Random) -> String {
    match random.below(12) {
        0..=3 => format!("grant={}", random.below(8)),
        4..=6 => format!("arrive={}", random.below(8)),
        7..=8 => format!("turn={}", random.below(160)),
        9 => format!("turns={},{}", random.below(80), 80 + random.below(80)),
        10 if random.below(40) == 0 => format!("withdraw={}", random.below(8)),
        _ => "press=none".into(),
    }
}

/// Calls from one client until the server is gone; what was accepted, with its version.
fn client(server: (&str, &str), seed: u64, over: &AtomicBool, answered: &Mutex<Vec<(u64, String)>>) {
    let mut random = Random(seed);
    let secret = format!("X-Conductor-Secret: {}\r\n", server.1);
    let Some(mut talk) = Talk::new(server.0) else { return };
    while !over.load(Ordering::Relaxed) {
        let call = random_call(&mut random);
        let Some(answer) = talk.say(&program::post(server.0, &call, &secret, true)) else { return };
        if answer.status == 200 {
            answered.lock().expect("unpoisoned").push((number(&answer.text(), "version"), call));
        }
    }
}

#[test]
fn every_answered_call_is_there_after_kill_9() {
    let folder = Folder::new();
    let text = plan();
    let plan = folder.file("plan", &text);
    let journal = folder.path("journal");
    let answered = Mutex::new(Vec::new());
    let mut unanswered = 0;
    for time in 0..20u64 {
        let mut server = Server::start(&[&plan, "--journal", &journal]);
        let over = AtomicBool::new(false);
        std::thread::scope(|scope| {
            let (address, secret) = (server.address.clone(), server.secret.clone());
            for i in 0..4 {
                let (address, secret, over, answered) = (address.clone(), secret.clone(), &over, &answered);
                scope.spawn(move || client((&address, &secret), 1 + 4 * time + i, over, answered));
            }
            let (before, start) = (answered.lock().expect("unpoisoned").len(), Instant::now());
            while answered.lock().expect("unpoisoned").len() < before + 25 && start.elapsed().as_secs() < 5 {
                std::thread::sleep(Duration::from_millis(1));
            }
            std::thread::sleep(Duration::from_millis(17 * time % 40));
            server.kill();
            over.store(true, Ordering::Relaxed);
        });
        let calls = calls_in(&std::fs::read(&journal).expect("the journal"));
        let again = Server::start(&[&plan, "--journal", &journal]);
        let known = answered.lock().expect("unpoisoned");
        for (version, call) in known.iter() {
            assert_eq!(calls.get(*version as usize - 1), Some(call), "answered as version {version}, kill {time}");
        }
        let version = again.version() as usize;
        assert!(version == calls.len() || version + 1 == calls.len(), "{version} of {} lines", calls.len());
        assert!(again.get("/tables").body == tables(&text, &calls[..version]), "tables after kill {time}");
        unanswered += version - known.iter().map(|(version, _)| *version as usize).max().unwrap_or(0).min(version);
    }
    let total = answered.lock().expect("unpoisoned").len();
    assert!(total > 200, "{total} calls are no load");
    println!("journal: 20 kills, {total} calls answered and all there, {unanswered} more that were written and not answered");
}

#[test]
fn a_journal_cut_or_damaged_anywhere_near_its_end() {
    let folder = Folder::new();
    let text = plan();
    let plan = folder.file("plan", &text);
    let journal = folder.path("whole");
    let mut random = Random(7);
    let server = Server::start(&[&plan, "--journal", &journal]);
    while server.version() < 40 {
        server.call(&random_call(&mut random)).expect("an answer");
    }
    drop(server);
    let whole = std::fs::read(&journal).expect("the journal");
    let calls = calls_in(&whole);
    let head = whole.len() - calls.iter().enumerate().map(|(i, call)| (i + 1).to_string().len() + call.len() + 11).sum::<usize>();
    for cut in whole.len() - 200..=whole.len() {
        let path = folder.file("cut", &whole[..cut]);
        let server = Server::start(&[&plan, "--journal", &path]);
        let lines = whole[head..cut].iter().filter(|byte| **byte == b'\n').count();
        let complete = whole.get(cut) == Some(&b'\n') && cut > head; // wants its line feed alone
        let known = lines + usize::from(complete);
        assert_eq!(server.version() as usize, known, "cut at {cut}: {}", server.told);
        assert!(server.get("/tables").body == tables(&text, &calls[..known]), "cut at {cut}");
        let torn = whole[cut - 1] != b'\n' && !complete;
        assert_eq!(server.told.contains("was torn and is cut off"), torn, "cut at {cut}: {}", server.told);
        drop(server);
        let mended = std::fs::read(&path).expect("the journal");
        let end = whole[..cut].iter().rposition(|byte| *byte == b'\n').map_or(0, |at| at + 1);
        assert!(mended == whole[..if complete { cut + 1 } else { end }], "cut at {cut}");
    }
    // a power cut can leave zeros where a line was to be
    for (cut, known, words) in [(0, calls.len(), "torn"), (1, calls.len(), "wanted its line feed"), (5, calls.len() - 1, "torn")] {
        let path = folder.file("zeros", [&whole[..whole.len() - cut], &[0; 70]].concat());
        let server = Server::start(&[&plan, "--journal", &path]);
        assert!(server.told.contains(words) && server.get("/tables").body == tables(&text, &calls[..known]), "{}", server.told);
        drop(server);
        let lines = if known == calls.len() { whole.len() } else { whole[..whole.len() - 1].iter().rposition(|byte| *byte == b'\n').map_or(0, |at| at + 1) };
        assert!(std::fs::read(&path).expect("the journal") == whole[..lines], "mended after a cut of {cut}");
    }
    for at in whole.len() - 200..whole.len() {
        let mut bytes = whole.clone();
        bytes[at] ^= 1 << (at % 7);
        let path = folder.file("damaged", &bytes);
        let refused = Server::try_start(&[&plan, "--journal", &path]).map(|_| ()).expect_err("damaged");
        assert!(refused.0 == 1 && refused.1.contains("it is damaged"), "{at}: {refused:?}");
        assert!(std::fs::read(&path).expect("the journal") == bytes, "left as it is");
    }
    println!("journal: cut at each of its last 200 bytes, and each of them damaged: read or refused, never wrong");
}

#[test]
fn a_journal_of_another_plan_is_refused_and_left() {
    let folder = Folder::new();
    let (q, site) = (folder.file("q", Q), folder.file("site", "site=1\npairs=0\nend=site\n"));
    let other = folder.file("other", Q.replace("go=4@5", "go=4@6"));
    let journal = folder.path("journal");
    let server = Server::start(&[&q, "--journal", &journal]);
    assert!(server.told.contains("begun"), "{}", server.told);
    let (status, said) = Server::try_start(&[&q, "--journal", &journal]).map(|_| ()).expect_err("in use");
    assert!(status == 2 && said.contains("it is in use"), "{said}");
    assert_eq!(server.call("grant=0").map(|answer| answer.status), Some(200));
    drop(server);
    let before = std::fs::read(&journal).expect("the journal");
    for (words, why) in [
        (&[&other[..], "--journal", &journal][..], "line 16: go=4@5, where this plan's has line 16: go=4@6"),
        (&[&q, "--journal", &journal, "--site", &site], "line 2: site none, where this plan's has line 2: site "),
    ] {
        let (status, said) = Server::try_start(words).map(|_| ()).expect_err("another plan");
        assert!(status == 1 && said.contains(why), "{said}");
        assert!(std::fs::read(&journal).expect("the journal") == before);
    }
    let letter = folder.file("letter", "Dear farmer,\n");
    let (status, said) = Server::try_start(&[&q, "--journal", &letter]).map(|_| ()).expect_err("no journal");
    assert!(status == 1 && said.contains("no journal of a conductor"), "{said}");
    assert_eq!(std::fs::read(&letter).expect("the letter"), b"Dear farmer,\n");
}

#[test]
fn a_call_that_is_refused_is_refused_with_its_line() {
    let folder = Folder::new();
    let (q, turned) = (folder.file("q", Q), folder.path("turned"));
    let server = Server::start(&[&q, "--journal", &turned]);
    for call in ["turn=0", "grant=1"] {
        assert_eq!(server.call(call).map(|answer| answer.status), Some(200), "{call}");
    }
    drop(server);
    let bytes = std::fs::read_to_string(&turned).expect("the journal");
    assert!(bytes.contains("\n1 turn=0 ") && bytes.contains("\n2 grant=1 ") && bytes.contains(Q));
    let out = bytes.replace("1 turn=0", "1 grant=1");
    let refused = folder.file("refused", resummed(&out));
    let (status, said) = Server::try_start(&[&q, "--journal", &refused]).map(|_| ()).expect_err("refused");
    assert!(
        status == 1 && said.contains("line 19: 1 grant=1") && said.contains("refused with 23: survey-quad-east-2 must wait: survey-quad-east-1 goes first"),
        "{said}"
    );
}

/// The journal with the checksums that its lines ask for, as somebody would make them who wants to be believed.
fn resummed(journal: &str) -> String {
    let step = |sum: u32| if sum & 1 == 1 { sum >> 1 ^ 0xedb8_8320 } else { sum >> 1 };
    let crc = |before: u32, bytes: &[u8]| !bytes.iter().fold(!before, |sum, byte| (0..8).fold(sum ^ u32::from(*byte), |sum, _| step(sum)));
    let (head, lines) = journal.split_once("\ncalls ").expect("a head");
    let mut sum = crc(0, format!("{head}\n").as_bytes());
    let mut out = format!("{head}\ncalls {sum:08x}\n");
    for line in lines.lines().skip(1) {
        let text = line.rsplit_once(' ').expect("a checksum").0;
        sum = crc(sum, text.as_bytes());
        out += &format!("{text} {sum:08x}\n");
    }
    out
}

/// The disk is full: the file may not grow beyond some size, and writing says so.
#[test]
fn a_full_disk_loses_nothing() {
    use std::io::{BufRead, BufReader};
    use std::process::{Command, Stdio};
    let folder = Folder::new();
    let text = plan();
    let (plan, journal) = (folder.file("plan", &text), folder.path("journal"));
    drop(Server::start(&[&plan, "--journal", &journal]));
    let script = "trap '' XFSZ; ulimit -f 6; exec \"$0\" serve \"$1\" --journal \"$2\" --listen 127.0.0.1:0";
    let mut child = Command::new("sh").args(["-c", script, program::PROGRAM, &plan, &journal]).stdout(Stdio::piped()).spawn().expect("the program");
    let mut out = BufReader::new(child.stdout.take().expect("its output")).lines();
    let line = out.by_ref().map(|line| line.expect("read")).find(|line| line.starts_with("to fly:")).expect("an address");
    let (address, secret) = line.trim_start_matches("to fly:   http://").split_once("/#").expect("a secret");
    let secret = format!("X-Conductor-Secret: {secret}\r\n");
    let mut talk = Talk::new(address).expect("connected");
    let (mut random, mut calls, mut full) = (Random(11), vec![], 0);
    for _ in 0..2_000 {
        let call = random_call(&mut random);
        // an answer by 507 ends its connection
        let Some(answer) = talk.say(&program::post(address, &call, &secret, true)) else { break };
        match answer.status {
            200 => calls.push(call),
            507 => {
                assert!(answer.text().contains("not done: the journal"), "{}", answer.text());
                full += 1;
                talk = Talk::new(address).expect("it goes on");
            }
            _ => {}
        }
        if full == 3 {
            break;
        }
    }
    let shown = program::exchange(address, format!("GET /tables HTTP/1.1\r\nHost: {address}\r\nConnection: close\r\n\r\n").as_bytes()).expect("an answer");
    child.kill().expect("killed");
    child.wait().expect("its end");
    assert!(full == 3 && calls.len() > 5, "{full} {}", calls.len());
    assert!(shown.body == tables(&text, &calls), "what was not written was not done");
    let again = Server::start(&[&plan, "--journal", &journal]);
    assert!(again.version() as usize == calls.len() && again.get("/tables").body == shown.body, "{}", again.told);
    assert!(!again.told.contains("torn"), "{}", again.told);
}
