// Links libboard.a, the archive of the proved calls. It is the one that CONDUCTOR_ARCHIVE names, or the repository's own, which `rt lib` makes in crates/board if it is not there yet or
// older than the crates.
use std::env;
use std::fs::{self, OpenOptions};
use std::io::{BufRead, BufReader, Write};
use std::path::{Path, PathBuf};
use std::process::{Command, Stdio};
use std::time::SystemTime;

fn stop(why: &str) -> ! {
    eprintln!("error: {why}");
    std::process::exit(1);
}

// Cargo keeps what a build script says until it ends, and a proof takes long: this is said on cargo's own standard error, where the system lets us open it, while it happens.
fn say(what: &str) {
    if let Ok(mut out) = OpenOptions::new().append(true).open(format!("/proc/{}/fd/2", std::os::unix::process::parent_id())) {
        let _ = writeln!(out, "   conductor: {what}");
    }
}

fn made(root: &Path, archive: &Path) {
    say("crates/board/out/libboard.a is not there, or older than the crates; `rt lib` proves and makes it: long from nothing, a minute or two where the crates below it are proved");
    let board = root.join("crates/board");
    let how = format!("run `rt lib` in {}, or set CONDUCTOR_ARCHIVE to a libboard.a", board.display());
    let mut rt = Command::new("sh")
        .args(["-c", "exec rt lib 2>&1"])
        .env("PYTHONUNBUFFERED", "1") // its lines as they come
        .current_dir(&board)
        .stdout(Stdio::piped())
        .spawn()
        .unwrap_or_else(|e| stop(&format!("`rt` does not start ({e}): {how}")));
    let said = rt.stdout.take().map(BufReader::new);
    for line in said.into_iter().flat_map(BufReader::lines).map_while(Result::ok) {
        println!("{line}");
        if line.starts_with("rt: ") {
            say(&line);
        }
    }
    match rt.wait() {
        Ok(status) if status.success() && archive.exists() => say("libboard.a is made"),
        status => stop(&format!("`rt lib` gave no archive ({status:?}): {how}")),
    }
}

// When a file was last changed, or of a folder the latest of those in it.
fn changed(path: &Path) -> SystemTime {
    let own = || fs::metadata(path).and_then(|about| about.modified()).unwrap_or(SystemTime::UNIX_EPOCH);
    match fs::read_dir(path) {
        Ok(inside) => inside.flatten().map(|file| changed(&file.path())).max().unwrap_or_else(own),
        Err(_) => own(),
    }
}

// What the archive is made of: all that stands in the crates' folders but out/, where `rt` keeps its work.
fn sources(root: &Path) -> Vec<PathBuf> {
    let inside = |folder: &Path| fs::read_dir(folder).into_iter().flatten().flatten().map(|file| file.path()).collect::<Vec<_>>();
    let mut all: Vec<_> = inside(&root.join("crates")).iter().flat_map(|one| inside(one)).filter(|path| !path.ends_with("out")).collect();
    all.push(root.join("crates.txt"));
    all
}

fn main() {
    let target = env::var("TARGET").unwrap_or_default();
    if !target.starts_with("x86_64") {
        stop(&format!("the toolchain makes libboard.a for x86-64 alone, and this build is for {target}"));
    }
    println!("cargo:rerun-if-env-changed=CONDUCTOR_ARCHIVE");
    let root = Path::new(env!("CARGO_MANIFEST_DIR")).join("../..");
    let archive = env::var_os("CONDUCTOR_ARCHIVE").map_or_else(|| root.join("crates/board/out/libboard.a"), PathBuf::from);
    if env::var_os("CONDUCTOR_ARCHIVE").is_some() {
        if !archive.exists() {
            stop(&format!("CONDUCTOR_ARCHIVE names {}, which is not there", archive.display()));
        }
    } else {
        let sources = sources(&root);
        for path in &sources {
            println!("cargo:rerun-if-changed={}", path.display());
        }
        if sources.iter().any(|path| changed(&archive) < changed(path)) {
            made(&root, &archive);
        }
    }
    let archive = archive.canonicalize().unwrap_or_else(|e| stop(&format!("{}: {e}", archive.display())));
    println!("cargo:rerun-if-changed={}", archive.display());
    // The linker finds a library by its name; whatever the archive is called, a copy of it is called so.
    let folder = PathBuf::from(env::var_os("OUT_DIR").unwrap_or_default());
    if let Err(e) = fs::copy(&archive, folder.join("libboard.a")) {
        stop(&format!("{} cannot be copied to {}: {e}", archive.display(), folder.display()));
    }
    println!("cargo:rustc-link-search=native={}", folder.display());
    println!("cargo:rustc-link-lib=static=board");
}
