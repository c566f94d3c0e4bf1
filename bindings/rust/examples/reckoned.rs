//! The program `field` by the independent reckoning of the tests, without the library: `tools/reckon.py --against target/release/examples/reckoned` then compares two reckonings, written apart. `field` reads
//! no site text; this program reads the plan with the one in the file that its argument names, if it has one, and so can be compared at sites too (`--sites`). Nor does `field` join plans: with the arguments
//! `--join EAST WEST`, and after each of the two files the file of its site text or `-`, this program reads a plan from each, makes the calls that follow it there, joins the two, and makes the calls in its
//! input on the joined plan (`--joins`). Nor does it look for the cheapest directions: with `--best BUDGET DRONES SITE` this program makes the calls in its input, withdraws the drones, and prints what is
//! found within the budget (`--best`); the drones stand with commas between them, and `-` is none, and no site text.
#[path = "../tests/reckoning/mod.rs"]
mod reckoning;

use reckoning::{Call, Tables, FULL};
use std::io::{Read, Write};

const INPUT: usize = 131_072;
const END: &[u8] = b"end=plan\n";

/// "The bytes through the first line `end=plan` are the plan, or all bytes if there is none."
fn plan_length(data: &[u8]) -> usize {
    let starts = std::iter::once(0).chain((0..data.len()).filter(|i| data[*i] == b'\n').map(|i| i + 1));
    starts.filter(|start| data[*start..].starts_with(END)).map(|start| start + END.len()).next().unwrap_or(data.len())
}

/// A call of a line without its line feed, or 2 or 4.
fn call_of(line: &[u8]) -> Result<(&str, Call), usize> {
    let (key, digits) = std::str::from_utf8(line).ok().and_then(|line| line.split_once('=')).ok_or(2usize)?;
    let call: fn(usize) -> Call = match key {
        "grant" => Call::Grant,
        "arrive" => Call::Arrive,
        "turn" => Call::Turn,
        "cost" => |_| Call::Cost,
        _ => return Err(2),
    };
    let n = reckoning::text::number(digits.as_bytes()).ok_or(2usize)?;
    if n > 65_535 || (key == "cost" && n > 0) {
        return Err(4);
    }
    Ok((key, call(n)))
}

/// The calls of lines, one after the other, and what is printed of each.
fn calls(tables: &mut Tables, mut rest: &[u8]) -> String {
    let mut out = String::new();
    while !rest.is_empty() {
        let line = rest.iter().position(|b| *b == b'\n').map(|length| &rest[..length]);
        let (key, call) = match line.map_or(Err(2), call_of) {
            Ok(call) => call,
            Err(number) => return out + &format!("call={number}\n"),
        };
        let answer = tables.call(&call, &mut []).0;
        out += &match (answer.number, &call) {
            (0, Call::Cost) => format!("{key}={}\n", answer.values[0]),
            (23, _) => format!("{key}=23:{}\n", answer.values[0]),
            (number, _) => format!("{key}={number}\n"),
        };
        rest = &rest[line.map_or(0, <[u8]>::len) + 1..];
    }
    out + "end=calls\n"
}

fn field(tables: &mut Tables, site: Option<&[u8]>, data: &[u8]) -> String {
    if data.len() > INPUT {
        return "plan=1\n".into();
    }
    let (plan, rest) = data.split_at(plan_length(data));
    match tables.read(site, plan).number {
        0 => "plan=0\n".to_string() + &calls(tables, rest),
        number => format!("plan={number}\n"),
    }
}

/// Two plans after the calls on each, joined: the number, and after a colon what goes with it; then the calls on the joined plan.
fn join(plans: &[(Option<Vec<u8>>, Vec<u8>); 2], rest: &[u8]) -> String {
    let [first, second] = plans.each_ref().map(|(site, data)| {
        let mut tables = Tables::zeroed(FULL);
        field(&mut tables, site.as_deref(), data);
        tables
    });
    let mut joined = Tables::zeroed(FULL);
    let answer = joined.join(&first, &second).0;
    let [offset, visits @ ..] = answer.values;
    match answer.number {
        0 => "join=0\n".to_string() + &calls(&mut joined, rest),
        number @ (1 | 4 | 5 | 6) => format!("join={number}:{offset}\n"),
        10 => format!("join=10:{}\n", visits.map(|n| n.to_string()).join(",")),
        number => format!("join={number}\n"),
    }
}

/// The calls of the input, the drones withdrawn, and the cheapest directions then: cost, count and the dependencies to turn, or with 37 the count.
fn best(budget: usize, home: &str, site: Option<&[u8]>, data: &[u8]) -> String {
    let mut tables = Tables::zeroed(FULL);
    let out = field(&mut tables, site, data);
    for drone in home.split(',').filter_map(|d| d.parse().ok()) {
        tables.call(&Call::Withdraw(drone), &mut []);
    }
    let mut list = vec![0; reckoning::DEPENDENCIES];
    let answer = tables.best_order(&mut list, budget).0;
    let [cost, length, count, _, _] = answer.values;
    let numbers = match answer.number {
        0 => [cost, count].into_iter().chain(list[..length as usize].iter().map(|p| i64::from(*p))).collect(),
        37 => vec![count],
        _ => vec![],
    };
    let numbers = numbers.iter().map(i64::to_string).collect::<Vec<_>>().join(",");
    format!("{out}best={}{}{numbers}\n", answer.number, if numbers.is_empty() { "" } else { ":" })
}

fn main() -> std::io::Result<()> {
    let words: Vec<String> = std::env::args().skip(1).collect();
    let site = |file: &String| if file == "-" { Ok(None) } else { std::fs::read(file).map(Some) };
    let mut data = Vec::new();
    std::io::stdin().read_to_end(&mut data)?;
    let out = match &words[..] {
        [word, east, east_site, west, west_site] if word == "--join" => {
            join(&[(site(east_site)?, std::fs::read(east)?), (site(west_site)?, std::fs::read(west)?)], &data)
        }
        [word, budget, home, at] if word == "--best" => best(budget.parse().unwrap_or(0), home, site(at)?.as_deref(), &data),
        files => field(&mut Tables::zeroed(FULL), files.first().map(std::fs::read).transpose()?.as_deref(), &data),
    };
    std::io::stdout().write_all(out.as_bytes())
}
