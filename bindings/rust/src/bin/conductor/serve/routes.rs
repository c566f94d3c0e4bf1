//! Which request gets which answer.
use crate::calls::{Call, Malformed, Reply};
use crate::serve::gate::{random_digits, Gate};
use crate::serve::http::{Method, Request, Response};
use crate::serve::json::{array, object, string};
use crate::serve::live::{Live, Outcome};
use crate::serve::{page, state};
use crate::words;
use conductor::picture::Rows;

/// So many previews are answered at once.
const PREVIEWS: usize = 64;

/// What every request is answered from.
pub struct Site {
    pub live: Live,
    pub gate: Gate,
    pub plan: String,
}

impl Site {
    /// Whether the request asks for the stream of events, which the connection itself answers.
    pub fn is_events(&self, request: &Request) -> bool {
        request.method == Method::Get && request.path == "/events"
    }

    pub fn answer(&self, request: &Request) -> Response {
        match (request.method, request.path.as_str()) {
            (Method::Get | Method::Head, path) => self.shown(path, &request.query),
            (Method::Post, "/call") => self.call(request),
            (Method::Post, _) => Response::words(404, "there is nothing to call here but /call"),
        }
    }

    fn shown(&self, path: &str, query: &str) -> Response {
        match path {
            "/" => page_with_nonce(),
            "/plan" => {
                let (field, _) = self.live.now();
                Response::json(200, state::plan(&field, &self.plan, self.live.journaled, &self.live.run))
            }
            "/state" => Response::json(200, self.live.shown().1.to_string()),
            "/tables" => Response::new(200, "application/octet-stream", state::tables(&self.live.now().0)),
            "/picture.svg" => Response::new(200, "image/svg+xml", self.live.picture(Rows::Crossings).as_bytes()),
            "/drones.svg" => Response::new(200, "image/svg+xml", self.live.picture(Rows::Drones).as_bytes()),
            "/previews" => self.previews(query),
            "/call" => Response::words(405, "a call is a POST"),
            _ => Response::words(404, "there is no such page"),
        }
    }

    /// `/previews?of=P,P,..`: what turning each by itself would change.
    fn previews(&self, query: &str) -> Response {
        let list = match query.strip_prefix("of=").map(|list| Call::parse(format!("previews={list}").as_bytes())) {
            Some(Ok(Call::Previews(list))) if list.len() <= PREVIEWS => list,
            _ => return Response::words(400, "previews are asked for as of=P,P,.. with at most 64 dependencies"),
        };
        let (field, version) = self.live.now();
        let previews = list.iter().map(|dependency| {
            let preview = field.preview(usize::from(*dependency));
            let words = preview.map_or_else(|refusal| refusal.to_string(), words::change);
            array([dependency.to_string(), preview.map_or("null".into(), |change| change.to_string()), string(&words)])
        });
        Response::json(200, object(&[("version", version.to_string()), ("previews", array(previews))]))
    }

    /// A call line in the body, with the secret.
    fn call(&self, request: &Request) -> Response {
        if !self.gate.knows_the_secret(request) {
            return Response::words(403, "nothing is changed without the secret: open the pilots' address");
        }
        let line = request.body.strip_suffix(b"\n").unwrap_or(&request.body);
        let seen = match request.header("x-conductor-version").map(str::parse) {
            None => None,
            Some(Ok(version)) => Some(version),
            Some(Err(_)) => return Response::words(400, "the version is no number"),
        };
        match Call::parse(line) {
            Ok(call) => self.made(&call, seen),
            Err(malformed) => not_a_call(malformed),
        }
    }

    fn made(&self, call: &Call, seen: Option<u64>) -> Response {
        let _one = match call {
            Call::Best(_) => match self.live.searching() {
                Some(guard) => Some(guard),
                None => return Response::words(429, "another search for the best order goes on"),
            },
            _ => None,
        };
        match self.live.call(call, seen) {
            Outcome::Answered { reply, words, version } => answered(call, &reply, &words, version),
            Outcome::Meanwhile => said(412, "not done: somebody made another call meanwhile, so what was previewed may have changed; look again"),
            Outcome::NotWritten(why) => said(507, &format!("not done: {why}")),
        }
    }
}

fn change(reply: &Reply) -> String {
    match reply {
        Reply::Change(change) => change.to_string(),
        _ => "null".into(),
    }
}

fn said(status: u16, words: &str) -> Response {
    Response::json(status, object(&[("accepted", "false".into()), ("words", string(words))]))
}

fn not_a_call(malformed: Malformed) -> Response {
    said(400, &malformed.to_string())
}

fn answered(call: &Call, reply: &Reply, words: &str, version: u64) -> Response {
    let mut fields = vec![
        ("accepted", (!reply.refused()).to_string()),
        ("line", string(&format!("{}={reply}", call.key()))),
        ("words", string(words)),
        ("version", version.to_string()),
        ("change", change(reply)),
    ];
    if let Reply::Best(best) = reply {
        fields.push(("turns", array(&best.turns)));
        fields.push(("cost", best.cost.to_string()));
    }
    Response::json(if reply.refused() { 409 } else { 200 }, object(&fields))
}

/// The page, with a word that only its own script and style know.
fn page_with_nonce() -> Response {
    match random_digits(32) {
        Ok(nonce) => {
            let mut response = Response::new(200, "text/html; charset=utf-8", page::page(&nonce));
            response.policy = page::policy(&nonce);
            response
        }
        Err(_) => Response::words(503, "there are no random numbers"),
    }
}
