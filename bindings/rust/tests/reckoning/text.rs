//! The plan text, read and written.
use super::plan::{legs_into, Plan, Stop};
use super::{accepted, refused, reply, Reply, DRONES, LOCATION, NAME, STOPS, TIME};

/// The lines of a text; `at` is the start of the line that is next. What is wrong with a line's form, or with a number's range, has another number in a plan text than in a site text.
pub struct Lines<'a> {
    text: &'a [u8],
    at: usize,
    form: usize,
    range: usize,
}

impl<'a> Lines<'a> {
    fn of_plan(text: &'a [u8]) -> Lines<'a> {
        Lines { text, at: 0, form: 2, range: 4 }
    }

    pub fn of_site(text: &'a [u8]) -> Lines<'a> {
        Lines { text, at: 0, form: 13, range: 14 }
    }

    /// The next line with what follows its key, or 2 at its start. "Each closed by a line feed."
    pub fn next(&mut self, key: &str) -> Result<(usize, &'a [u8]), Reply> {
        let start = self.at;
        let rest = &self.text[start..];
        let length = rest.iter().position(|b| *b == b'\n').ok_or(reply(self.form, &[start]))?;
        self.at = start + length + 1;
        rest[..length].strip_prefix(key.as_bytes()).map(|body| (start, body)).ok_or(reply(self.form, &[start]))
    }

    pub fn exactly(&mut self, line: &str) -> Result<(), Reply> {
        let (start, rest) = self.next(line)?;
        if rest.is_empty() {
            Ok(())
        } else {
            Err(reply(self.form, &[start]))
        }
    }

    /// "Nothing follows the last line."
    pub fn nothing_follows(&self) -> Result<(), Reply> {
        if self.at < self.text.len() {
            Err(reply(self.form, &[self.at]))
        } else {
            Ok(())
        }
    }

    /// The first line: `plan=1` or `plan=2`.
    fn plan_form(&mut self) -> Result<usize, Reply> {
        match self.next("plan=")? {
            (_, b"1") => Ok(1),
            (_, b"2") => Ok(2),
            (start, _) => Err(reply(2, &[start])),
        }
    }

    pub fn number(&mut self, key: &str, low: usize, high: usize) -> Result<(usize, usize), Reply> {
        let (start, body) = self.next(key)?;
        let n = number(body).ok_or(reply(self.form, &[start]))?;
        if n < low || n > high {
            Err(reply(self.range, &[start]))
        } else {
            Ok((start, n))
        }
    }

    /// A drone's stop k: `go=LOCATION@TIME`, and in form 2 `go=LOCATION@TIME@LEG`. Every number's form comes before any number's range.
    fn stop(&mut self, form: usize, k: usize) -> Result<Stop, Reply> {
        let (start, body) = self.next("go=")?;
        let legs = legs_into(form, k);
        let numbers: Option<Vec<usize>> = body.split(|b| *b == b'@').map(number).collect();
        let (location, time, leg) = match (form, numbers.as_deref()) {
            (1, Some([location, time])) => (*location, *time, *legs.start()),
            (2, Some([location, time, leg])) => (*location, *time, *leg),
            _ => return Err(reply(2, &[start])),
        };
        if location > LOCATION || time > TIME || !legs.contains(&leg) {
            Err(reply(4, &[start]))
        } else {
            Ok(Stop { location, time, leg })
        }
    }
}

/// "Numbers are decimal, one to seven digits, without sign or leading zero (zero is `0`)."
pub fn number(digits: &[u8]) -> Option<usize> {
    let form = (1..=7).contains(&digits.len()) && digits.iter().all(u8::is_ascii_digit) && (digits.len() == 1 || digits[0] != b'0');
    form.then(|| digits.iter().fold(0, |n, digit| 10 * n + usize::from(digit - b'0')))
}

/// "Capitals A to Z are to be allowed, and a capital is the same letter as its small form"
fn small(name: &[u8]) -> Vec<u8> {
    name.iter().map(|b| if b.is_ascii_uppercase() { b - b'A' + b'a' } else { *b }).collect()
}

pub fn is_name(name: &[u8]) -> bool {
    (1..=NAME).contains(&name.len()) && name.iter().all(|b| b"abcdefghijklmnopqrstuvwxyz0123456789-".contains(b))
}

/// The plan of a text, unchecked, or its refusal from 2 to 6.
pub fn read(text: &[u8]) -> Result<Plan, Reply> {
    let mut lines = Lines::of_plan(text);
    let form = lines.plan_form()?;
    let (_, drones) = lines.number("agents=", 1, DRONES)?;
    let mut plan = Plan { form, ..Plan::default() };
    let mut all = 0;
    for _ in 0..drones {
        let (start, spelled) = lines.next("name=")?;
        let name = small(spelled);
        if !is_name(&name) {
            return Err(reply(3, &[start]));
        }
        if plan.names.contains(&name) {
            return Err(reply(5, &[start]));
        }
        plan.names.push(name);
        let (start, stops) = lines.number("stops=", 1, STOPS)?;
        all += stops;
        if all > STOPS {
            return Err(reply(6, &[start]));
        }
        plan.routes.push((0..stops).map(|k| lines.stop(form, k)).collect::<Result<_, _>>()?);
    }
    lines.exactly("end=plan")?;
    lines.nothing_follows().map(|()| plan)
}

/// The text of a plan: "a plan is written in the form it was read in".
pub fn of(plan: &Plan) -> Vec<u8> {
    let mut text = format!("plan={}\nagents={}\n", plan.form, plan.routes.len());
    for (name, route) in plan.names.iter().zip(&plan.routes) {
        text += &format!("name={}\nstops={}\n", String::from_utf8_lossy(name), route.len());
        for Stop { location, time, leg } in route {
            let leg = if plan.form == 1 { String::new() } else { format!("@{leg}") };
            text += &format!("go={location}@{time}{leg}\n");
        }
    }
    text += "end=plan\n";
    text.into_bytes()
}

/// "The writer returns the length and leaves bytes past the text unchanged"; "42 buffer shorter than the text".
pub fn written(plan: &Plan, buffer: &mut [u8]) -> Reply {
    copied(&of(plan), buffer)
}

pub fn copied(text: &[u8], buffer: &mut [u8]) -> Reply {
    if buffer.len() < text.len() {
        return refused(42);
    }
    buffer[..text.len()].copy_from_slice(text);
    accepted(text.len())
}
