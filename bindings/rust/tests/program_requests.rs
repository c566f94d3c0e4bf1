//! Nobody in who does not belong: requests without the secret, from other sites, malformed, and many at once.
mod program;

use program::{exchange, full, number, post, Folder, Random, Server, Q};
use std::sync::atomic::{AtomicUsize, Ordering};
use std::sync::Barrier;
use std::time::Instant;

fn secret(server: &Server) -> String {
    format!("X-Conductor-Secret: {}\r\n", server.secret)
}

#[test]
fn nothing_is_changed_without_the_secret() {
    let folder = Folder::new();
    let server = Server::start(&[&folder.file("q", Q)]);
    let other = "0".repeat(32);
    for headers in [
        String::new(),
        format!("X-Conductor-Secret: {other}\r\n"),
        format!("X-Conductor-Secret: {}\r\n", &server.secret[..31]),
        format!("X-Conductor-Secret: {}0\r\n", server.secret),
        format!("Cookie: secret={}\r\n", server.secret),
    ] {
        assert_eq!(server.post("grant=0", &headers).map(|answer| answer.status), Some(403), "{headers}");
    }
    assert_eq!(server.post("grant=0", &format!("{0}{0}", secret(&server))).map(|answer| answer.status), Some(400), "twice");
    assert_eq!(server.version(), 0);
    let answer = server.call("grant=1").expect("an answer");
    assert!(
        answer.status == 409 && answer.text().contains("refused with 23: survey-quad-east-2 must wait: survey-quad-east-1 goes first at crossing 5"),
        "{answer:?}"
    );
    assert_eq!(server.call("fly=1").map(|answer| answer.status), Some(400));
    let answer = server.call("grant=0\n").expect("an answer");
    assert!(
        answer.status == 200 && number(&answer.text(), "version") == 1 && answer.text().contains("survey-quad-east-1 is under way to its stop 1, crossing 6"),
        "{answer:?}"
    );
}

#[test]
fn other_hosts_and_other_sites_are_turned_away() {
    let folder = Folder::new();
    let server = Server::start(&[&folder.file("q", Q), "--host", "field.example"]);
    let port = server.address.rsplit_once(':').expect("a port").1;
    let get = |host: &str, more: &str| {
        exchange(&server.address, format!("GET /state HTTP/1.1\r\nHost: {host}\r\n{more}Connection: close\r\n\r\n").as_bytes()).expect("an answer").status
    };
    for host in [&server.address, &format!("localhost:{port}"), &format!("Field.Example:{port}"), &format!("[::1]:{port}")] {
        assert_eq!(get(host, ""), 200, "{host}");
    }
    for host in ["127.0.0.1", "evil.example", &format!("evil.example:{port}"), &format!("192.168.0.1:{port}"), ""] {
        assert_eq!(get(host, ""), 421, "{host}");
    }
    let own = &server.address;
    for more in [
        "Origin: http://evil.example\r\n",
        "Origin: null\r\n",
        "Sec-Fetch-Site: cross-site\r\n",
        "Sec-Fetch-Site: same-site\r\n",
        &format!("Origin: https://{own}\r\n"),
    ] {
        assert_eq!(get(own, more), 403, "{more}");
        assert_eq!(server.post("grant=0", &format!("{}{more}", secret(&server))).map(|answer| answer.status), Some(403), "{more}");
    }
    assert_eq!(get(own, "Sec-Fetch-Site: cross-site\r\nSec-Fetch-Mode: navigate\r\n"), 200, "a link is followed");
    assert_eq!(
        server.post("grant=0", &format!("{}Origin: http://{own}\r\nSec-Fetch-Site: same-origin\r\n", secret(&server))).map(|answer| answer.status),
        Some(200)
    );
    assert_eq!(server.version(), 1);
}

#[test]
fn what_is_shown_is_guarded() {
    let folder = Folder::new();
    let server = Server::start(&[&folder.file("q", Q)]);
    let page = server.get("/");
    assert!(page.status == 200 && page.text().contains("<!doctype html>") && !page.text().contains(&server.secret));
    for header in [
        "Content-Security-Policy: default-src 'none'; script-src 'nonce-",
        "X-Content-Type-Options: nosniff",
        "Cache-Control: no-store",
        "X-Frame-Options: DENY",
        "Referrer-Policy: no-referrer",
    ] {
        assert!(page.head.contains(header), "{header} in {}", page.head);
    }
    assert!(!page.head.contains("unsafe") && server.get("/").head != page.head, "a word of its own for each page");
    for (path, status) in [
        ("/plan", 200),
        ("/state", 200),
        ("/picture.svg", 200),
        ("/drones.svg", 200),
        ("/previews?of=0", 200),
        ("/previews?of=", 200),
        ("/previews?of=x", 400),
        ("/previews", 400),
        ("/call", 405),
        ("/etc/passwd", 404),
        ("/../secret", 404),
        ("/favicon.ico", 404),
    ] {
        assert_eq!(server.get(path).status, status, "{path}");
    }
    assert!(server.get("/previews?of=0,7").text().contains("[0,-2,\"2 rounds less\"],[7,null,\"refused with 30"));
    let many: Vec<String> = (0..65).map(|n| n.to_string()).collect();
    assert_eq!(server.get(&format!("/previews?of={}", many.join(","))).status, 400);
}

#[test]
fn a_turn_is_of_what_was_previewed() {
    let folder = Folder::new();
    let server = Server::start(&[&folder.file("q", Q)]);
    let seen = |version: u64| format!("{}X-Conductor-Version: {version}\r\n", secret(&server));
    assert_eq!(server.post("grant=0", &seen(7)).map(|answer| answer.status), Some(200), "a grant is of now");
    assert_eq!(server.post("turn=0", &seen(0)).map(|answer| answer.status), Some(412));
    assert_eq!(server.post("turns=0", &seen(0)).map(|answer| answer.status), Some(412));
    assert_eq!(server.post("turn=0", &seen(1)).map(|answer| answer.status), Some(200));
    assert_eq!(server.post("turn=0", &format!("{}X-Conductor-Version: one\r\n", secret(&server))).map(|answer| answer.status), Some(400));
    assert_eq!(server.version(), 2);
}

/// A request that is no longer what it was: bytes changed, left out, put in, doubled, cut.
fn damaged(random: &mut Random, request: &[u8]) -> Vec<u8> {
    let mut bytes = request.to_vec();
    for _ in 0..1 + random.below(4) {
        let at = random.below(bytes.len().max(1));
        match random.below(7) {
            0 if !bytes.is_empty() => bytes[at] = random.next() as u8,
            1 if !bytes.is_empty() => drop(bytes.remove(at)),
            2 => bytes.insert(at.min(bytes.len()), b"\r\n :\0\xff=/%,"[random.below(10)]),
            3 => bytes.truncate(at),
            4 => bytes.extend_from_within(at.min(bytes.len())..),
            5 => bytes.splice(at..at, vec![b'a'; 1 << random.below(15)]).for_each(drop),
            _ => bytes.rotate_left(at),
        }
    }
    bytes
}

#[test]
fn more_than_twenty_thousand_malformed_requests() {
    let folder = Folder::new();
    let mut server = Server::start(&[&folder.file("q", Q)]);
    let host = server.address.clone();
    let requests: Vec<String> = vec![
        format!("GET / HTTP/1.1\r\nHost: {host}\r\nConnection: close\r\n\r\n"),
        format!("GET /previews?of=0,1,2 HTTP/1.1\r\nHost: {host}\r\n\r\n"),
        format!("HEAD /plan HTTP/1.0\r\nHost: {host}\r\nAccept: */*\r\n\r\n"),
        post(&host, "grant=0", "", false),
        post(&host, "turns=0,1", "X-Conductor-Secret: 00000000000000000000000000000000\r\n", true),
        format!("POST /call HTTP/1.1\r\nHost: {host}\r\nTransfer-Encoding: chunked\r\n\r\n7\r\ngrant=0\r\n0\r\n\r\n"),
        format!("POST /call HTTP/1.1\r\nHost: {host}\r\nContent-Length: 999999\r\n\r\ngrant=0"),
        "\x16\x03\x01\x02\0\x01\0\x01\x7c\x03\x03".into(),
        "PRI * HTTP/2.0\r\n\r\nSM\r\n\r\n".into(),
    ];
    let counts: Vec<AtomicUsize> = (0..600).map(|_| AtomicUsize::new(0)).collect();
    let (each, clients) = (2_650, 8);
    std::thread::scope(|scope| {
        for client in 0..clients {
            let (requests, counts, host) = (&requests, &counts, &host);
            scope.spawn(move || {
                let mut random = Random(1000 + client);
                for _ in 0..each {
                    let whole = &requests[random.below(requests.len())];
                    let request = damaged(&mut random, whole.as_bytes());
                    let status = exchange(host, &request).map_or(0, |answer| answer.status);
                    counts[usize::from(status)].fetch_add(1, Ordering::Relaxed);
                    let post = request.starts_with(b"POST");
                    assert!(status == 0 || (200..500).contains(&status), "{status}: {}", request.escape_ascii());
                    assert!(!(post && (200..300).contains(&status)), "{status}: {}", request.escape_ascii());
                }
            });
        }
    });
    let seen: Vec<String> = counts
        .iter()
        .enumerate()
        .filter_map(|(status, count)| Some((status, count.load(Ordering::Relaxed))).filter(|(_, n)| *n > 0).map(|(s, n)| format!("{s}: {n}")))
        .collect();
    let malformed: usize = counts[400..500].iter().map(|count| count.load(Ordering::Relaxed)).sum();
    println!("requests: {malformed} malformed ones answered by 4xx; all by status: {}", seen.join(", "));
    assert!(malformed >= 20_000, "{malformed}");
    assert!(server.lives() && server.version() == 0);
}

#[test]
fn five_thousand_requests_at_once() {
    let folder = Folder::new();
    let mut server = Server::start(&[&folder.file("full", full()), "--journal", &folder.path("journal")]);
    let clients = 5_000;
    let barrier = Barrier::new(clients);
    let (accepted, without, busy) = (AtomicUsize::new(0), AtomicUsize::new(0), AtomicUsize::new(0));
    let start = Instant::now();
    std::thread::scope(|scope| {
        for client in 0..clients {
            let (server, barrier, accepted, without, busy) = (&server, &barrier, &accepted, &without, &busy);
            scope.spawn(move || {
                let mut random = Random(1 + client as u64);
                barrier.wait();
                let (drone, kind) = (random.below(64), client % 5);
                let answer = match kind {
                    0 => server.call(&format!("grant={drone}")),
                    1 => server.call(&format!("arrive={drone}")),
                    2 => server.post(&format!("grant={drone}"), ""),
                    3 => server.call(&format!("preview={}", random.below(3968))),
                    _ => Some(server.get("/state")),
                }
                .expect("an answer");
                match (kind, answer.status) {
                    (0 | 1, 200) => drop(accepted.fetch_add(1, Ordering::Relaxed)),
                    (2, 403) => drop(without.fetch_add(1, Ordering::Relaxed)),
                    (_, 503) => drop(busy.fetch_add(1, Ordering::Relaxed)),
                    (4, 200) | (0 | 1 | 3, 200 | 409) => {}
                    other => panic!("{other:?}: {answer:?}"),
                }
            });
        }
    });
    let (accepted, without, busy) = (accepted.into_inner(), without.into_inner(), busy.into_inner());
    let seconds = start.elapsed().as_secs_f64();
    println!("requests: 5,000 clients at once, all answered in {seconds:.1} s: {accepted} calls accepted, {without} without the secret turned away, {busy} told to come later");
    assert!(server.lives() && server.version() == accepted as u64, "no call but those that were accepted");
    assert!(accepted > 100 && without + busy >= 1_000);
}

#[test]
fn slow_senders_are_not_waited_for() {
    use std::io::{Read, Write};
    let folder = Folder::new();
    let server = Server::start(&[&folder.file("q", Q)]);
    let mut slow: Vec<std::net::TcpStream> = (0..40).map(|_| std::net::TcpStream::connect(&server.address).expect("connected")).collect();
    slow.iter_mut().for_each(|stream| stream.write_all(b"GET / HTTP/1.1\r\nHost:").expect("sent"));
    let start = Instant::now();
    assert_eq!(server.get("/state").status, 200, "others are answered meanwhile");
    assert!(start.elapsed().as_secs() < 5);
    for stream in &mut slow {
        let mut answer = String::new();
        let _ = stream.read_to_string(&mut answer);
        assert!(answer.starts_with("HTTP/1.1 408 "), "{answer}");
    }
    assert!(start.elapsed().as_secs() < 30);
}

/// The versions that a page is told, one after another.
fn told(server: &Server) -> impl FnMut() -> u64 {
    use std::io::{BufRead, BufReader, Write};
    let mut stream = std::net::TcpStream::connect(&server.address).expect("connected");
    stream.set_read_timeout(Some(std::time::Duration::from_secs(20))).expect("set");
    stream.write_all(format!("GET /events HTTP/1.1\r\nHost: {}\r\n\r\n", server.address).as_bytes()).expect("sent");
    let mut lines = BufReader::new(stream).lines();
    move || loop {
        let line = lines.next().expect("a line").expect("read");
        if let Some(state) = line.strip_prefix("data: ") {
            return number(state, "version");
        }
    }
}

#[test]
fn two_pages_see_the_same_at_once() {
    let folder = Folder::new();
    let server = Server::start(&[&folder.file("full", full())]);
    let (mut one, mut other) = (told(&server), told(&server));
    assert_eq!((one(), other()), (0, 0));
    let mut times = Vec::new();
    for drone in 0..40 {
        let start = Instant::now();
        assert_eq!(server.call(&format!("grant={drone}")).map(|answer| answer.status), Some(200));
        let version = drone + 1;
        assert_eq!((one(), other()), (version, version));
        times.push(start.elapsed().as_secs_f64() * 1e3);
    }
    times.sort_by(f64::total_cmp);
    println!("requests: a grant at full tables was on both of two pages after {:.1} ms, at the latest {:.1}", times[20], times[39]);
}
