//! The marks of a page: one for each command, a line from each write to the row that it lands in, and the races.

use super::lanes::Lanes;
use super::svg::{at, esc, n, x};
use super::window::Window;
use crate::lines::Place;
use crate::story::{Event, Mark};
use std::collections::{HashMap, HashSet};

pub struct Marks {
    pub flows: String,
    pub marks: String,
    pub arcs: String,
}

pub fn marks(window: &Window, lanes: &Lanes) -> Marks {
    let mut writers: HashMap<Place, HashSet<usize>> = HashMap::new();
    for event in window.story.events() {
        if let Mark::Write(place, ..) = event.mark {
            writers.entry(place).or_default().insert(event.turn.label);
        }
    }
    let overtaken: HashSet<usize> = window.races.iter().map(|race| race.read).collect();
    let late: HashSet<usize> = window.races.iter().flat_map(|race| race.late.iter().copied()).collect();
    let mut out = Marks { flows: String::new(), marks: String::new(), arcs: arcs(window, lanes) };
    for event in window.events() {
        let turn = event.turn.turn;
        let (Some(slot), Some(&y)) = (window.middle(turn), lanes.acts.get(&event.turn.label)) else { continue };
        let mut mark = shape(event, &writers);
        if overtaken.contains(&turn) {
            mark += "<circle class=\"ring\" r=\"7.5\"/>";
        }
        if late.contains(&turn) {
            mark += "<rect class=\"late\" x=\"-7.5\" y=\"-7.5\" width=\"15\" height=\"15\"/>";
        }
        if let Some(row) = event.turn.wrote.and_then(|(place, ..)| lanes.values.get(&place)) {
            let line = format!(
                "<path class=\"flow\" d=\"M0 {}V{2}\"/><circle cx=\"0\" cy=\"{2}\" r=\"{}\" class=\"end\"/>",
                n(y),
                2.4,
                n(*row)
            );
            out.flows += &at(slot, "", &line);
        }
        out.marks += &at(slot, "", &format!("<g transform=\"translate(0,{})\"><g class=\"mk\">{mark}</g></g>", n(y)));
    }
    out
}

/// The shape of a command's mark. A read is filled where another instance writes the place in this run.
fn shape(event: &Event, writers: &HashMap<Place, HashSet<usize>>) -> String {
    match event.mark {
        Mark::Read(place, _) => {
            let shared =
                writers.get(&place).is_some_and(|labels| labels.iter().any(|label| *label != event.turn.label));
            format!("<circle class=\"rd{}\" r=\"4\"/>", if shared { " sh" } else { "" })
        }
        Mark::Write(..) => "<rect class=\"wr\" x=\"-4.5\" y=\"-4.5\" width=\"9\" height=\"9\"/>".to_string(),
        Mark::Dropped => "<rect class=\"dr\" x=\"-4\" y=\"-4\" width=\"8\" height=\"8\"/>".to_string(),
        Mark::If(yes) => format!("<path class=\"iff{}\" d=\"M0-6L5 0L0 6L-5 0Z\"/>", if yes { "" } else { " no" }),
        Mark::Make(_) => "<path class=\"cons\" d=\"M-5 0H5M0-5V5\"/>".to_string(),
        Mark::Other => "<path class=\"ot\" d=\"M0-3.5V3.5\"/>".to_string(),
    }
}

/// A red curve from each read that is overtaken to the write that does it.
fn arcs(window: &Window, lanes: &Lanes) -> String {
    let labels: HashMap<usize, usize> = window.events().map(|event| (event.turn.turn, event.turn.label)).collect();
    let end = |turn: usize| Some((window.middle(turn)?, *lanes.acts.get(labels.get(&turn)?)?));
    let mut out = String::new();
    for race in window.races {
        let (Some((a, from)), Some((b, to))) = (end(race.read), end(race.write)) else { continue };
        let (left, right) = (x(a), x(b));
        let half = (right - left) / 2.0;
        out += &format!(
            "<path class=\"race\" marker-end=\"url(#tip)\" data-race=\"{},{},{},{}\" d=\"M{left:.1} {1}C{:.1} {1} {:.1} {3} {right:.1} {3}\">\
            <title>{}</title></path>",
            n(a),
            n(from),
            n(b),
            n(to),
            left + half,
            right - half,
            esc(&race.says.replace('`', ""))
        );
    }
    out
}
