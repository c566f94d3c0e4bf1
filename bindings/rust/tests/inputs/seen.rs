//! What was seen, and whether that is all that can come.
use std::collections::BTreeMap;

#[derive(Default)]
pub struct Seen {
    replies: BTreeMap<&'static str, BTreeMap<usize, usize>>,
    forms: BTreeMap<u8, usize>,
    clauses: BTreeMap<&'static str, usize>,
}

impl Seen {
    pub fn reply(&mut self, kind: &'static str, number: usize) {
        *self.replies.entry(kind).or_default().entry(number).or_default() += 1;
    }

    /// A plan of this form was taken.
    pub fn form(&mut self, form: u8) {
        *self.forms.entry(form).or_default() += 1;
    }

    pub fn clause(&mut self, clause: &'static str) {
        *self.clauses.entry(clause).or_default() += 1;
    }

    /// Prints what was seen, and fails if a reply of `kind` that can come was never seen, or one that cannot was, or if plans of one form alone were taken.
    pub fn report(&self, test: &str, seed: u64, cases: usize, expected: &[(&str, &[usize])]) {
        let compared: usize = self.replies.values().flat_map(BTreeMap::values).sum();
        println!("{test}: {cases} cases, {compared} replies and the tables after them compared, seed {seed}");
        for (kind, counts) in &self.replies {
            println!("  {kind:<12}{}", counts.iter().map(|(n, c)| format!("{n}: {c}")).collect::<Vec<_>>().join(", "));
        }
        if !self.forms.is_empty() {
            println!("  {:<12}{}", "form", self.forms.iter().map(|(n, c)| format!("{n}: {c}")).collect::<Vec<_>>().join(", "));
            assert!(self.forms.keys().eq([1, 2].iter()), "the forms of the plans taken");
        }
        if !self.clauses.is_empty() {
            println!("  40 by clause: {}", self.clauses.iter().map(|(n, c)| format!("{n} {c}")).collect::<Vec<_>>().join(", "));
        }
        for (kind, numbers) in expected {
            let seen: Vec<usize> = self.replies.get(kind).map(|c| c.keys().copied().collect()).unwrap_or_default();
            let mut numbers = numbers.to_vec();
            numbers.sort();
            assert_eq!(seen, numbers, "{kind}: the replies seen, and those that can come");
        }
    }

    pub fn all_clauses(&self, expected: &[&str]) {
        for clause in expected {
            assert!(self.clauses.contains_key(clause), "no tables failed by `{clause}` alone");
        }
    }
}
