//! `conductor best`: the cheapest order. And the small plans for the bench.
use crate::arguments::Given;
use crate::calls::commas;
use crate::input::Stop;
use crate::show::plan_after_calls;
use crate::words;
use conductor::{small_plan, BUDGET, SMALL_PLANS};
use std::fmt::Write;

fn budget(given: &Given) -> Result<usize, Stop> {
    let Some(word) = given.option("--budget") else {
        return Ok(BUDGET);
    };
    let number = word.to_str().and_then(|word| word.parse().ok());
    number.ok_or_else(|| Stop::Cannot(format!("conductor best: `--budget {}` is no number", word.to_string_lossy())))
}

pub fn best(given: &Given) -> Result<(), Stop> {
    let budget = budget(given)?;
    let mut field = plan_after_calls(given)?.field;
    let best = field.best_order(budget).map_err(|refusal| Stop::Refused(format!("{refusal} (the budget was {budget}, the most is {BUDGET})")))?;
    let mut out = format!("{}\n", words::best(&field, &best));
    if !best.turns.is_empty() {
        field.turn_all(&best.turns).map_err(|refusal| Stop::Refused(refusal.to_string()))?;
        for order in field.dependencies().filter(|order| best.turns.iter().any(|turn| usize::from(*turn) == order.number)) {
            let _ = writeln!(out, "{:>5}  {}", order.number, words::in_force(&field, &order));
        }
        let _ = writeln!(out, "turns={}", commas(&best.turns));
    }
    crate::print(&out)
}

pub fn small_plans() -> Result<(), Stop> {
    let mut out = String::new();
    let mut buffer = [0; 128];
    for number in 0..SMALL_PLANS {
        let length = small_plan(number, &mut buffer).map_err(|refusal| Stop::Refused(refusal.to_string()))?;
        out += &String::from_utf8_lossy(&buffer[..length]);
    }
    crate::print(&out)
}
