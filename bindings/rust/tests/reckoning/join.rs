//! Two plans joined, by point 1 of document 02 and what points 7, 10 and 14 say of joining: the joined plan's own text is written in full and read.
use super::graph::Status;
use super::plan::Plan;
use super::sound::sound;
use super::{refused, site, text, Reply, Tables};

/// "a drone of either has visited stop 1 or is under way, or a dependency of either is turned"; "a plan with a withdrawn drone gets 16".
fn started(status: &Status) -> bool {
    let any = |marks: &[bool]| marks.contains(&true);
    status.place.iter().any(|stop| *stop >= 1) || any(&status.under_way) || any(&status.turned) || any(&status.withdrawn)
}

/// "The first plan's drones come first, and times are kept"; "joining one of each gives `plan=2`", in which the tables' legs of a `plan=1` plan are written: one, and 0 at stop 0. It is not checked yet.
pub fn joined(first: &Plan, second: &Plan) -> Plan {
    let form = if first.form == 2 || second.form == 2 { 2 } else { 1 };
    let (mut names, mut routes) = (first.names.clone(), first.routes.clone());
    names.extend(second.names.iter().cloned());
    routes.extend(second.routes.iter().cloned());
    Plan { form, names, routes, ..Plan::default() }.at_site(first.pairs.clone())
}

impl Tables {
    /// The joining of two plans into these tables: its reply, and every table after it. "Refused: 40, either plan's tables not sound, after 41; 16 .. after 40 and before 1; both change no table."
    /// "Joining two plans whose site pairs differ gets 16." "The joined plan is taken exactly when its own text would be, and the third tables are then what reading that text gives." Of tables that are
    /// not sound it also says by which clause.
    pub fn join(&mut self, first: &Tables, second: &Tables) -> (Reply, Option<&'static str>) {
        if first.too_small() || second.too_small() || self.too_small() {
            return (refused(41), None);
        }
        let ((first, progress), (second, other_progress)) = match (sound(first), sound(second)) {
            (Ok(first), Ok(second)) => (first, second),
            (Err(clause), _) | (_, Err(clause)) => return (refused(40), Some(clause)),
        };
        if started(&progress) || started(&other_progress) || first.pairs != second.pairs {
            return (refused(16), None);
        }
        (self.read(Some(&site::of(&first.pairs)), &text::of(&joined(&first, &second))), None)
    }
}
