//! Who belongs here: the names of this machine, pages of our own, and whoever knows the secret.
use crate::input::Stop;
use crate::serve::http::Request;
use std::ffi::OsString;
use std::fs::{File, OpenOptions};
use std::hint::black_box;
use std::io::{ErrorKind, Read, Write};
use std::net::{IpAddr, SocketAddr};
use std::os::unix::fs::OpenOptionsExt;

const SECRET: usize = 32;

/// Random bytes of the system, as hexadecimal digits.
pub fn random_digits(count: usize) -> Result<String, Stop> {
    let mut bytes = vec![0; count.div_ceil(2)];
    let read = File::open("/dev/urandom").and_then(|mut file| file.read_exact(&mut bytes));
    read.map_err(|error| Stop::Cannot(format!("there are no random numbers to make a secret of: {error}")))?;
    Ok(bytes.iter().map(|byte| format!("{byte:02x}")).collect())
}

/// The secret: a new one, or the one in a file, which nobody but its owner reads.
pub fn secret(file: Option<&OsString>) -> Result<String, Stop> {
    let fresh = random_digits(SECRET)?;
    let Some(path) = file else {
        return Ok(fresh);
    };
    let cannot = |error| Stop::Cannot(format!("the secret's file {} cannot be used: {error}", path.to_string_lossy()));
    match OpenOptions::new().write(true).create_new(true).mode(0o600).open(path) {
        Ok(mut made) => {
            made.write_all(format!("{fresh}\n").as_bytes()).and_then(|()| made.sync_all()).map_err(cannot)?;
            Ok(fresh)
        }
        Err(error) if error.kind() == ErrorKind::AlreadyExists => kept(path, cannot),
        Err(error) => Err(cannot(error)),
    }
}

fn kept(path: &OsString, cannot: impl Fn(std::io::Error) -> Stop) -> Result<String, Stop> {
    let mut text = String::new();
    File::open(path).and_then(|file| file.take(200).read_to_string(&mut text)).map_err(&cannot)?;
    let secret = text.trim_end_matches('\n');
    if secret.len() == SECRET && secret.bytes().all(|byte| byte.is_ascii_hexdigit()) {
        return Ok(secret.into());
    }
    Err(Stop::Refused(format!("{} holds no secret of ours: {SECRET} hexadecimal digits and a line feed", path.to_string_lossy())))
}

/// Compares without telling by the time how much is right.
fn same(secret: &str, given: &str) -> bool {
    let differences = secret.bytes().zip(given.bytes().chain(std::iter::repeat(0))).fold(0, |sum, (a, b)| black_box(sum | (a ^ b)));
    black_box(differences) == 0 && secret.len() == given.len()
}

pub struct Gate {
    listening: SocketAddr,
    names: Vec<String>,
    secret: String,
}

impl Gate {
    pub fn new(listening: SocketAddr, names: Vec<String>, secret: String) -> Gate {
        Gate { listening, names: names.into_iter().map(|name| name.to_ascii_lowercase()).collect(), secret }
    }

    /// The host of an address of ours, without its port. A name that somebody else's server was given for this machine is none of them; a number cannot be given away.
    fn is_ours(&self, host: &str) -> bool {
        let address = host.strip_prefix('[').and_then(|host| host.strip_suffix(']')).unwrap_or(host).parse::<IpAddr>();
        let own = self.listening.ip();
        match address {
            Ok(address) if own.is_unspecified() => !address.is_unspecified(),
            Ok(address) if own.is_loopback() => address.is_loopback(),
            Ok(address) => address == own,
            Err(_) if host == "localhost" => own.is_loopback() || own.is_unspecified(),
            Err(_) => self.names.iter().any(|name| name == host),
        }
    }

    /// Whether `Host` names us, with our port.
    fn host(&self, value: &str) -> bool {
        let value = value.to_ascii_lowercase();
        let port = self.listening.port().to_string();
        match value.rsplit_once(':') {
            Some((host, digits)) if digits.bytes().all(|byte| byte.is_ascii_digit()) => digits == port && self.is_ours(host),
            _ => self.listening.port() == 80 && self.is_ours(&value),
        }
    }

    /// What keeps other sites' pages out, for every request: a status and words.
    pub fn refuses(&self, request: &Request) -> Option<(u16, &'static str)> {
        if !request.header("host").is_some_and(|host| self.host(host)) {
            return Some((421, "this is not the host that was asked for (Host); see --host"));
        }
        let from_elsewhere = request.header("origin").is_some_and(|origin| !origin.strip_prefix("http://").is_some_and(|host| self.host(host)));
        let site = request.header("sec-fetch-site").unwrap_or("none");
        let navigates = request.header("sec-fetch-mode") == Some("navigate");
        if from_elsewhere || (!matches!(site, "same-origin" | "none") && !navigates) {
            return Some((403, "the request comes from another site (Origin)"));
        }
        None
    }

    pub fn knows_the_secret(&self, request: &Request) -> bool {
        request.header("x-conductor-secret").is_some_and(|given| same(&self.secret, given))
    }
}

#[cfg(test)]
mod tests {
    use super::*;

    fn gate(listening: &str) -> Gate {
        Gate::new(listening.parse().unwrap_or_else(|_| panic!("{listening}")), vec!["Field.example".into()], "s".into())
    }

    #[test]
    fn hosts() {
        let own = gate("127.0.0.1:8420");
        for host in ["127.0.0.1:8420", "localhost:8420", "LOCALHOST:8420", "[::1]:8420", "field.example:8420"] {
            assert!(own.host(host), "{host}");
        }
        for host in [
            "",
            ":",
            "127.0.0.1",
            "127.0.0.1:80",
            "localhost",
            "evil.example:8420",
            "192.168.1.2:8420",
            "localhost.evil.example:8420",
            "127.0.0.1.evil.example:8420",
            "[::1]",
        ] {
            assert!(!own.host(host), "{host}");
        }
        let net = gate("0.0.0.0:80");
        assert!(net.host("192.168.1.2") && net.host("192.168.1.2:80") && !net.host("evil.example") && !net.host("0.0.0.0"));
        assert!(gate("192.168.1.2:8420").host("192.168.1.2:8420") && !gate("192.168.1.2:8420").host("127.0.0.1:8420"));
    }

    #[test]
    fn secrets() {
        assert!(same("abc", "abc"));
        for other in ["", "ab", "abcd", "abd", "Abc", "abc\0"] {
            assert!(!same("abc", other), "{other}");
        }
    }
}
