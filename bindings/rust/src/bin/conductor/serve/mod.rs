//! `conductor serve`: a page for pilots.
mod connections;
mod gate;
mod http;
mod json;
mod live;
mod page;
mod routes;
mod state;

use crate::arguments::Given;
use crate::check::summary;
use crate::input::{Plan, Stop};
use crate::journal::Journal;
use std::net::{SocketAddr, TcpListener, ToSocketAddrs};
use std::path::Path;
use std::sync::Arc;

const LISTEN: &str = "127.0.0.1:8420";

fn listening(given: &Given) -> Result<(TcpListener, SocketAddr), Stop> {
    let word = given.option("--listen").map_or(LISTEN.into(), |word| word.to_string_lossy());
    let wrong = |error: std::io::Error| Stop::Cannot(format!("conductor serve: `--listen {word}` cannot be listened to: {error}"));
    let addresses: Vec<SocketAddr> = word.to_socket_addrs().map_err(wrong)?.collect();
    let listener = TcpListener::bind(&addresses[..]).map_err(wrong)?;
    longer_queue(&listener);
    let address = listener.local_addr().map_err(wrong)?;
    Ok((listener, address))
}

/// The standard library has 128 connections wait until they are taken; the system has room for more, so that whoever comes in a crowd is answered. Where it has not, 128 stay.
#[cfg(unix)]
#[allow(unsafe_code)]
fn longer_queue(listener: &TcpListener) {
    use std::os::fd::AsRawFd;
    extern "C" {
        fn listen(socket: i32, length: i32) -> i32;
    }
    // SAFETY: the socket is open while it is borrowed, and listening anew only sets the length of its queue.
    let _ = unsafe { listen(listener.as_raw_fd(), 4096) };
}

#[cfg(not(unix))]
fn longer_queue(_: &TcpListener) {}

/// An address that a browser on this machine can open.
fn reachable(address: SocketAddr) -> String {
    match address {
        SocketAddr::V4(v4) if v4.ip().is_unspecified() => format!("127.0.0.1:{}", v4.port()),
        SocketAddr::V6(v6) if v6.ip().is_unspecified() => format!("[::1]:{}", v6.port()),
        other => other.to_string(),
    }
}

/// The page's title: the name of the plan's file, without its folders.
fn title(name: &str) -> String {
    Path::new(name).file_name().map_or(name.into(), |file| file.to_string_lossy().into_owned())
}

fn told(plan: &Plan, address: SocketAddr, secret: &str) -> Result<(), Stop> {
    let at = reachable(address);
    let overheard = if address.ip().is_loopback() {
        ""
    } else {
        "other machines can reach this address, and the secret can be overheard on the way: use it in a net that you trust\n"
    };
    crate::print(&format!("{}: taken: {}\n{overheard}to look:  http://{at}/\nto fly:   http://{at}/#{secret}\n", plan.text.name, summary(&plan.field)))
}

pub fn serve(given: &Given) -> Result<(), Stop> {
    let mut plan = Plan::read(&given.operands[0], given.option("--site"))?;
    let secret = gate::secret(given.option("--secret"))?;
    let (listener, address) = listening(given)?;
    let journal = given.option("--journal").map(|path| Journal::open(path, &mut plan)).transpose()?;
    if let Some(opened) = &journal {
        crate::print(&format!("{}\n", opened.told))?;
    }
    told(&plan, address, &secret)?;
    let names = given.all("--host").map(|name| name.to_string_lossy().into_owned()).collect();
    let live = live::Live::new(plan.field, journal.map(|opened| opened.journal), gate::random_digits(16)?);
    let site = routes::Site { live, gate: gate::Gate::new(address, names, secret), plan: title(&plan.text.name) };
    connections::accept(&listener, Arc::new(site))
}
