//! One call by the library and by the reckoning: the reply, and every entry of every table after it, those past a full size too.
use super::calls::kind;
use super::seen::Seen;
use super::sites::site_of;
use super::{lent, plans, Random};
use crate::reckoning::plan::Plan;
use crate::reckoning::text::{self, of as text_of};
use crate::reckoning::{Call, Reply, Tables};

pub fn compare_reading(seen: &mut Seen, mut tables: Tables, site: Option<&[u8]>, text: &[u8]) -> (Tables, Reply) {
    let mut reckoned = tables.clone();
    let (got, want) = (lent::read(&mut tables, site, text), reckoned.read(site, text));
    let shown = || (site.map(String::from_utf8_lossy), String::from_utf8_lossy(text));
    assert_eq!(got, want, "reading {:?}", shown());
    assert!(tables == reckoned, "tables after reading {:?}", shown());
    seen.reply(if site.is_some() { "read_site" } else { "read" }, want.number);
    if want.number == 0 {
        seen.form(tables.form[0]);
    }
    (tables, want)
}

pub fn compare_call(seen: &mut Seen, tables: &mut Tables, call: &Call, length: usize) -> Reply {
    let mut reckoned = tables.clone();
    let (mut buffer, mut reckoned_buffer) = (vec![0xa5; length], vec![0xa5; length]);
    let got = lent::make(tables, call, &mut buffer);
    let (want, clause) = reckoned.call(call, &mut reckoned_buffer);
    assert_eq!(got, want, "{call:?}");
    assert!(*tables == reckoned, "tables after {call:?}");
    assert!(buffer == reckoned_buffer, "buffer after {call:?}");
    seen.reply(kind(call), want.number);
    clause.iter().for_each(|clause| seen.clause(clause));
    want
}

/// Buffers at the text's own length, one byte less, and others.
pub fn buffer_length(r: &mut Random, call: &Call, plan: &Plan) -> usize {
    let exact = if *call == Call::Write { text_of(plan).len() } else { 0 };
    [exact, exact.saturating_sub(1), exact + r.below(9), 0][r.below(4)]
}

/// A plan that the reckoning takes, and the site text that it is read with, if any.
pub fn taken(r: &mut Random) -> (Option<Vec<u8>>, Plan) {
    loop {
        let plan = plans::plan(r);
        if let Ok(plan) = text::read(&text_of(&plan)).and_then(|read| read.at_site(plan.pairs).checked()) {
            return (site_of(r, &plan), plan);
        }
    }
}
