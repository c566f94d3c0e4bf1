//! The calls as lines, as `field` has them and one for every other call. `run` answers them, the journal holds them, and the page sends them.
use conductor::{BestOrder, BestOrderRefusal, Conductor, GrantRefusal, Granted};
use std::fmt;

/// A call with what it names.
#[derive(Clone, Debug, PartialEq, Eq)]
pub enum Call {
    Grant(usize),
    Arrive(usize),
    Withdraw(usize),
    Turn(usize),
    Turns(Vec<u16>),
    Preview(usize),
    Previews(Vec<u16>),
    Cost,
    Rounds,
    Press(Option<usize>),
    Best(usize),
}

/// What is wrong with a line that is no call: 2, its form, or 4, a number outside its range.
#[derive(Clone, Copy, Debug, PartialEq, Eq)]
pub enum Malformed {
    Form,
    Range,
}

impl Malformed {
    pub fn number(self) -> usize {
        match self {
            Malformed::Form => 2,
            Malformed::Range => 4,
        }
    }
}

impl fmt::Display for Malformed {
    fn fmt(&self, f: &mut fmt::Formatter) -> fmt::Result {
        let words = match self {
            Malformed::Form => "it is no call: grant=D, arrive=D, withdraw=D, turn=P, turns=P,P,.., preview=P, previews=P,P,.., cost=0, rounds=0, press=none, press=D or best=BUDGET",
            Malformed::Range => "a number is outside its range: drones and dependencies 0 to 65,535; after cost= and rounds= stands 0",
        };
        write!(f, "malformed ({}): {words}", self.number())
    }
}

/// Why a call was not done. The detail is the dependency of a 23, and how many choices were entered of a 37.
#[derive(Clone, Copy, Debug, PartialEq, Eq)]
pub struct Refusal {
    pub number: usize,
    pub detail: Option<usize>,
}

/// What a call answers.
#[derive(Clone, Debug, PartialEq, Eq)]
pub enum Reply {
    Done,
    Amount(usize),
    Change(i64),
    Granted(Granted),
    Best(BestOrder),
    Refused(Refusal),
}

/// A decimal of one to seven digits without sign or leading zero.
fn number(digits: &[u8]) -> Result<usize, Malformed> {
    let formed = matches!(digits.len(), 1..=7) && digits.iter().all(u8::is_ascii_digit) && (digits.len() == 1 || digits[0] != b'0');
    formed.then(|| digits.iter().fold(0, |n, digit| 10 * n + usize::from(digit - b'0'))).ok_or(Malformed::Form)
}

/// A drone or a dependency.
fn index(digits: &[u8]) -> Result<usize, Malformed> {
    number(digits).and_then(|n| if n <= usize::from(u16::MAX) { Ok(n) } else { Err(Malformed::Range) })
}

/// Dependencies with commas between them; nothing at all is the empty list. That all are numbers comes before the range of any.
fn list(digits: &[u8]) -> Result<Vec<u16>, Malformed> {
    if digits.is_empty() {
        return Ok(vec![]);
    }
    let numbers = digits.split(|byte| *byte == b',').map(number).collect::<Result<Vec<usize>, Malformed>>()?;
    numbers.into_iter().map(|n| u16::try_from(n).map_err(|_| Malformed::Range)).collect()
}

fn zero(digits: &[u8], call: Call) -> Result<Call, Malformed> {
    if number(digits)? == 0 {
        Ok(call)
    } else {
        Err(Malformed::Range)
    }
}

fn reply<T, R>(result: Result<T, R>, done: impl FnOnce(T) -> Reply, number: impl FnOnce(&R) -> usize) -> Reply {
    result.map_or_else(|refusal| Reply::Refused(Refusal { number: number(&refusal), detail: None }), done)
}

fn granted(result: Result<(), GrantRefusal>) -> Reply {
    match result {
        Err(GrantRefusal::MustWait(dependency)) => Reply::Refused(Refusal { number: 23, detail: Some(dependency) }),
        other => reply(other, |()| Reply::Done, GrantRefusal::number),
    }
}

fn found(result: Result<BestOrder, BestOrderRefusal>) -> Reply {
    match result {
        Err(BestOrderRefusal::TooMany { count }) => Reply::Refused(Refusal { number: 37, detail: Some(count) }),
        other => reply(other, Reply::Best, BestOrderRefusal::number),
    }
}

impl Call {
    /// The call of a line without its line feed.
    pub fn parse(line: &[u8]) -> Result<Call, Malformed> {
        let at = line.iter().position(|byte| *byte == b'=').ok_or(Malformed::Form)?;
        let (key, value) = (&line[..at], &line[at + 1..]);
        match key {
            b"grant" => index(value).map(Call::Grant),
            b"arrive" => index(value).map(Call::Arrive),
            b"withdraw" => index(value).map(Call::Withdraw),
            b"turn" => index(value).map(Call::Turn),
            b"turns" => list(value).map(Call::Turns),
            b"preview" => index(value).map(Call::Preview),
            b"previews" => list(value).map(Call::Previews),
            b"cost" => zero(value, Call::Cost),
            b"rounds" => zero(value, Call::Rounds),
            b"press" if value == b"none" => Ok(Call::Press(None)),
            b"press" => index(value).map(|drone| Call::Press(Some(drone))),
            b"best" => number(value).map(Call::Best),
            _ => Err(Malformed::Form),
        }
    }

    pub fn key(&self) -> &'static str {
        match self {
            Call::Grant(_) => "grant",
            Call::Arrive(_) => "arrive",
            Call::Withdraw(_) => "withdraw",
            Call::Turn(_) => "turn",
            Call::Turns(_) => "turns",
            Call::Preview(_) => "preview",
            Call::Previews(_) => "previews",
            Call::Cost => "cost",
            Call::Rounds => "rounds",
            Call::Press(_) => "press",
            Call::Best(_) => "best",
        }
    }

    /// Whether the call, once it is accepted, changes the tables.
    pub fn changes(&self) -> bool {
        matches!(self, Call::Grant(_) | Call::Arrive(_) | Call::Withdraw(_) | Call::Turn(_) | Call::Turns(_) | Call::Press(_))
    }

    /// Whether it turns an order round: made twice, it would undo itself.
    pub fn turns(&self) -> bool {
        matches!(self, Call::Turn(_) | Call::Turns(_))
    }

    /// Makes the call.
    pub fn make(&self, field: &mut Conductor) -> Reply {
        match self {
            Call::Grant(drone) => granted(field.grant(*drone)),
            Call::Arrive(drone) => reply(field.arrive(*drone), |()| Reply::Done, |r| r.number()),
            Call::Withdraw(drone) => reply(field.withdraw(*drone), |()| Reply::Done, |r| r.number()),
            Call::Turn(dependency) => reply(field.turn(*dependency), |()| Reply::Done, |r| r.number()),
            Call::Turns(list) => reply(field.turn_all(list), |()| Reply::Done, |r| r.number()),
            Call::Press(reported) => reply(field.press(*reported), Reply::Granted, |r| r.number()),
            other => other.ask(field),
        }
    }

    /// Makes a call that changes nothing; one that would is made on a copy.
    pub fn ask(&self, field: &Conductor) -> Reply {
        match self {
            Call::Preview(dependency) => reply(field.preview(*dependency), Reply::Change, |r| r.number()),
            Call::Previews(list) => reply(field.preview_all(list), Reply::Change, |r| r.number()),
            Call::Cost => reply(field.cost(), Reply::Amount, |r| r.number()),
            Call::Rounds => reply(field.rounds(), Reply::Amount, |r| r.number()),
            Call::Best(budget) => found(field.best_order(*budget)),
            changing => changing.make(&mut field.clone()),
        }
    }
}

/// Numbers with commas between them.
pub fn commas<T: ToString>(numbers: impl IntoIterator<Item = T>) -> String {
    numbers.into_iter().map(|n| n.to_string()).collect::<Vec<String>>().join(",")
}

impl fmt::Display for Call {
    fn fmt(&self, f: &mut fmt::Formatter) -> fmt::Result {
        write!(f, "{}=", self.key())?;
        match self {
            Call::Grant(n) | Call::Arrive(n) | Call::Withdraw(n) | Call::Turn(n) | Call::Preview(n) | Call::Best(n) | Call::Press(Some(n)) => write!(f, "{n}"),
            Call::Turns(list) | Call::Previews(list) => write!(f, "{}", commas(list)),
            Call::Cost | Call::Rounds => write!(f, "0"),
            Call::Press(None) => write!(f, "none"),
        }
    }
}

/// What stands after the call's key in the answer's line.
impl fmt::Display for Reply {
    fn fmt(&self, f: &mut fmt::Formatter) -> fmt::Result {
        match self {
            Reply::Done => write!(f, "0"),
            Reply::Amount(n) => write!(f, "{n}"),
            Reply::Change(change) => write!(f, "0:{change}"),
            Reply::Granted(granted) => write!(f, "0:{}", commas(granted.drones())),
            Reply::Best(best) => write!(f, "0:{}:{}:{}", best.cost, best.count, commas(&best.turns)),
            Reply::Refused(Refusal { number, detail: None }) => write!(f, "{number}"),
            Reply::Refused(Refusal { number, detail: Some(detail) }) => write!(f, "{number}:{detail}"),
        }
    }
}

impl Reply {
    pub fn refused(&self) -> bool {
        matches!(self, Reply::Refused(_))
    }
}

#[cfg(test)]
mod tests {
    use super::*;

    #[test]
    fn a_line_is_its_call_and_the_call_its_line() {
        for line in [
            "grant=0",
            "arrive=65535",
            "withdraw=7",
            "turn=12",
            "turns=0,3,4095",
            "turns=",
            "preview=1",
            "previews=2",
            "cost=0",
            "rounds=0",
            "press=none",
            "press=0",
            "best=100000",
        ] {
            assert_eq!(Call::parse(line.as_bytes()).map(|call| call.to_string()), Ok(line.to_string()));
        }
    }

    #[test]
    fn what_is_no_call() {
        for line in [
            "",
            "grant",
            "grant=",
            "grant=01",
            "grant=+1",
            "Grant=0",
            "grant=0 ",
            "grant=99999999",
            "turns=,",
            "turns=1,",
            "press=",
            "press=nobody",
            "cost=x",
            "grants=0",
            "best=",
        ] {
            assert_eq!(Call::parse(line.as_bytes()), Err(Malformed::Form), "{line}");
        }
        for line in ["grant=65536", "cost=1", "rounds=1", "turns=1,65536", "press=70000"] {
            assert_eq!(Call::parse(line.as_bytes()), Err(Malformed::Range), "{line}");
        }
    }
}
