//! A thread for each connection, so many and no more.
use crate::serve::http::{Connection, Method, Request, Response, Unread, LAST};
use crate::serve::routes::Site;
use std::net::{TcpListener, TcpStream};
use std::panic::{catch_unwind, AssertUnwindSafe};
use std::sync::{Arc, Condvar, Mutex, PoisonError};
use std::thread;
use std::time::Duration;

const CONNECTIONS: usize = 512;
/// Of these, so many may be streams of events, which stay open.
const STREAMS: usize = 96;
/// How long a connection more waits for another one's end.
const PATIENCE: Duration = Duration::from_secs(5);
const ALIVE: Duration = Duration::from_secs(10);
/// The calls' own tables are on the stack.
const STACK: usize = 4 << 20;

/// How many places are taken of so many.
struct Places {
    taken: Mutex<usize>,
    freed: Condvar,
    most: usize,
}

/// A place, given back at its end.
struct Place(Arc<Places>);

impl Places {
    fn new(most: usize) -> Arc<Places> {
        Arc::new(Places { taken: Mutex::new(0), freed: Condvar::new(), most })
    }

    fn take(self: &Arc<Places>, patience: Duration) -> Option<Place> {
        let taken = self.taken.lock().unwrap_or_else(PoisonError::into_inner);
        let waited = self.freed.wait_timeout_while(taken, patience, |taken| *taken >= self.most);
        let mut taken = waited.unwrap_or_else(PoisonError::into_inner).0;
        if *taken >= self.most {
            return None;
        }
        *taken += 1;
        Some(Place(self.clone()))
    }
}

impl Drop for Place {
    fn drop(&mut self) {
        *self.0.taken.lock().unwrap_or_else(PoisonError::into_inner) -= 1;
        self.0.freed.notify_one();
    }
}

/// Takes connections for ever. One that fails is one less.
pub fn accept(listener: &TcpListener, site: Arc<Site>) -> ! {
    let (connections, streams) = (Places::new(CONNECTIONS), Places::new(STREAMS));
    loop {
        let Ok((stream, _)) = listener.accept() else {
            thread::sleep(Duration::from_millis(20));
            continue;
        };
        match connections.take(PATIENCE) {
            Some(place) => begin(stream, site.clone(), streams.clone(), place),
            None => busy(stream),
        }
    }
}

/// No thread is taken for this, so nobody is waited for long.
fn busy(stream: TcpStream) {
    let mut connection = Connection::new(stream);
    let _ = connection.answer(&Response::words(503, "too many connections"), false, false);
    connection.end(Duration::from_millis(20));
}

fn begin(stream: TcpStream, site: Arc<Site>, streams: Arc<Places>, place: Place) {
    let waiting = Arc::new(Mutex::new(Some(stream)));
    let taken = |waiting: &Mutex<Option<TcpStream>>| waiting.lock().unwrap_or_else(PoisonError::into_inner).take();
    let (thread, own) = (thread::Builder::new().stack_size(STACK), waiting.clone());
    let begun = thread.spawn(move || {
        let _place = place;
        if let Some(stream) = taken(&own) {
            converse(Connection::new(stream), &site, &streams);
        }
    });
    if begun.is_err() {
        taken(&waiting).into_iter().for_each(busy); // no thread can be had
    }
}

/// Request after request, until one side has had enough.
fn converse(mut connection: Connection, site: &Site, streams: &Arc<Places>) {
    loop {
        let request = match connection.request() {
            Ok(request) => request,
            Err(Unread::Gone) => return,
            Err(Unread::Bad(status, words)) => {
                let _ = connection.answer(&Response::words(status, words), false, false);
                return connection.end(LAST);
            }
        };
        let refused = site.gate.refuses(&request).map(|(status, words)| Response::words(status, words));
        if refused.is_none() && site.is_events(&request) {
            return events(connection, site, streams);
        }
        let response = refused.unwrap_or_else(|| guarded(site, &request));
        let keep = request.keep && response.status < 500;
        if connection.answer(&response, request.method == Method::Head, keep).is_err() {
            return;
        }
        if !keep {
            return connection.end(LAST);
        }
    }
}

/// A fault of our own ends one request, not the program.
fn guarded(site: &Site, request: &Request) -> Response {
    catch_unwind(AssertUnwindSafe(|| site.answer(request))).unwrap_or_else(|_| Response::words(500, "a fault of the program: the call was not made"))
}

/// What is now, at once and after each change, as long as somebody reads it.
fn events(mut connection: Connection, site: &Site, streams: &Arc<Places>) {
    let Some(_place) = streams.take(Duration::ZERO) else {
        let _ = connection.answer(&Response::words(503, "too many pages are open"), false, false);
        return connection.end(LAST);
    };
    let mut seen = None;
    let mut going = connection.begin_events();
    while going.is_ok() {
        let version = site.live.wait(seen, ALIVE);
        going = if Some(version) == seen {
            connection.alive()
        } else {
            let (version, shown) = site.live.shown();
            seen = Some(version);
            connection.event(&shown)
        };
    }
}
