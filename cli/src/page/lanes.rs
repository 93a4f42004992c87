//! The lanes of a page: for each instance a row of bands for its statements, and a row of values for each parameter that is written.

use super::svg::{esc, guide, n, rect, text, x};
use super::window::Window;
use crate::lines::Place;
use crate::story::{Event, Item, Mark};
use std::collections::{BTreeMap, HashMap};

/// Heights: of the turn numbers, of the schedule's row, and where the lanes begin.
pub const AXIS: f64 = 14.0;
pub const SCHEDULE: f64 = 22.0;
const FIRST_LANE: f64 = 56.0;

/// The drawing of the lanes, in parts by what lies over what, and where each row is.
#[derive(Default)]
pub struct Lanes {
    pub names: String,
    pub bands: String,
    pub labels: String,
    /// The height of the marks of an instance, and of the row of a parameter.
    pub acts: HashMap<usize, f64>,
    pub values: HashMap<Place, f64>,
    pub end: f64,
    /// The width of the column of names.
    pub width: f64,
}

pub fn lanes(window: &Window, labels: &[usize]) -> Lanes {
    let mut lanes = Lanes { width: names_width(window, labels), ..Lanes::default() };
    lanes.names += &format!(
        "<text class=\"mutt sm\" x=\"8\" y=\"{AXIS}\">turn</text><text class=\"lane\" x=\"8\" y=\"{}\">Schedule</text>",
        SCHEDULE + 16.0
    );
    let mut written: BTreeMap<Place, Vec<&Event>> = BTreeMap::new();
    for event in window.events() {
        if let Mark::Write(place, ..) = event.mark {
            written.entry(place).or_default().push(event);
        }
    }
    let mut y = FIRST_LANE;
    for &label in labels {
        lanes.bands += &guide("guide", y - 6.0);
        lanes.names += &guide("guide", y - 6.0);
        lanes.names +=
            &format!("<text class=\"lane\" x=\"8\" y=\"{}\">{}</text>", n(y + 13.0), esc(&window.story.name(label)));
        let top = y;
        let own: Vec<&Event> = window.events().filter(|event| event.turn.label == label).collect();
        if !own.is_empty() {
            lanes.acts.insert(label, y + 31.0);
            lanes.statements(window, &own, y);
            y += 44.0;
        }
        for (&place, writes) in written.range((label, 0)..(label + 1, 0)) {
            y = if own.is_empty() { y.max(top + 18.0) } else { y };
            lanes.row(window, place, writes, y);
            y += 20.0;
        }
        y += 14.0;
    }
    lanes.end = y - 8.0;
    lanes
}

/// The column of names is as wide as its longest name asks for, within bounds.
fn names_width(window: &Window, labels: &[usize]) -> f64 {
    let longest = labels.iter().map(|&label| window.story.name(label).chars().count()).max().unwrap_or(0);
    (16.0 + 8.0 * longest as f64).clamp(118.0, 240.0)
}

impl Lanes {
    /// A band for each statement that an instance goes through; an if begins with its answer.
    fn statements(&mut self, window: &Window, own: &[&Event], y: f64) {
        let mut odd = false;
        let mut at = 0;
        while at < own.len() {
            let goes_on = |pair: &[&Event]| {
                let (a, b) = (&pair[0], &pair[1]);
                b.turn.position > a.turn.position && b.statement == a.statement && b.turn.step == a.turn.step
            };
            let length = 1 + own[at..].windows(2).take_while(|pair| goes_on(pair)).count();
            let band = &own[at..at + length];
            let (first, last) =
                (window.slot(band[0].turn.turn).unwrap_or(0.0), window.slot(band[length - 1].turn.turn).unwrap_or(0.0));
            let answer =
                band.iter().rev().find_map(|event| if let Mark::If(yes) = event.mark { Some(yes) } else { None });
            let step = || window.story.program.step_name(band[0].turn.step).to_string();
            let statement = if band[0].statement.is_empty() { step() } else { band[0].statement.clone() };
            let said = answer.map_or("", |yes| if yes { "yes: " } else { "no: " }).to_string() + &statement;
            self.bands += &rect((first, last + 1.0), y, 41.0, if odd { "stat b" } else { "stat" }, 2, &said);
            self.labels += &text((first, last + 1.0), y + 14.0, "sm halo2", &said, None);
            odd = !odd;
            at += length;
        }
    }

    /// The values of a parameter over the window.
    fn row(&mut self, window: &Window, place: Place, writes: &[&Event], y: f64) {
        let story = window.story;
        self.values.insert(place, y + 9.0);
        self.names +=
            &format!("<text class=\"sm mutt\" x=\"20\" y=\"{}\">{}</text>", n(y + 13.0), esc(story.parameter(place)));
        let begin = story.born.get(&place.0).and_then(|&turn| window.middle(turn)).unwrap_or(0.0);
        let mut cuts = vec![(begin, String::new())];
        for event in writes {
            if let (Mark::Write(_, old, new), Some(at)) = (event.mark, window.middle(event.turn.turn)) {
                if cuts.len() == 1 {
                    cuts[0].1 = story.value(place, old);
                }
                cuts.push((at, format!("{} → {}", story.value(place, old), story.value(place, new))));
            }
        }
        let first_turn = window.items().iter().position(|item| matches!(item, Item::Event(_))).unwrap_or(0) as f64;
        for (i, (from, said)) in cuts.iter().enumerate() {
            let to = cuts.get(i + 1).map_or(window.end(), |next| next.0);
            let alt = i.checked_sub(1).map(|i| (cuts[i].0, cuts[i].1.chars().count()));
            self.bands += &rect((*from, to), y, 17.0, "val", 1, &format!("{}: {said}", story.at(place)));
            self.labels += &text((from.max(first_turn), to), y + 13.0, "sm halo3", said, alt);
        }
    }
}

/// The row of the schedule: the step that runs, and a bar through all lanes for each move.
pub fn schedule(window: &Window, end: f64) -> String {
    let mut out = String::new();
    let items = window.items();
    let mut at = 0;
    while at < items.len() {
        if let Item::Move { .. } = items[at] {
            let tip = format!("The schedule moves: it {}", window.story.moved(window.items.0 + at));
            out += &rect((at as f64 + 0.3, at as f64 + 0.7), SCHEDULE, end - SCHEDULE, "mv", 0, &tip);
            at += 1;
            continue;
        }
        let turns: Vec<&Event> = items[at..]
            .iter()
            .map_while(|item| if let Item::Event(event) = item { Some(&**event) } else { None })
            .collect();
        let mut steps: Vec<&str> = turns.iter().map(|event| window.story.program.step_name(event.turn.step)).collect();
        steps.dedup();
        let (name, slots) = (steps[0], (at as f64, (at + turns.len()) as f64));
        let tip = format!("step {name}, turns {} to {}", turns[0].turn.turn, turns[turns.len() - 1].turn.turn);
        out += &rect(slots, SCHEDULE, 22.0, "sched", 1, &tip);
        out += &text(slots, SCHEDULE + 15.0, "", name, None);
        at += turns.len();
    }
    out
}

/// The numbers of turns above and below, every fifth one shown at first.
pub fn ticks(window: &Window, below: Option<f64>) -> String {
    let few = window.count() < 120;
    let mut out = String::new();
    for event in window.events() {
        let turn = event.turn.turn;
        let Some(slot) = window.middle(turn).filter(|_| few || turn % 5 == 0) else { continue };
        let hidden = if turn % 5 == 0 { "" } else { " style=\"display:none\"" };
        let label = |y: f64| format!("<text class=\"sm mutt\" y=\"{}\" text-anchor=\"middle\">{turn}</text>", n(y));
        let below = below.map_or(String::new(), label);
        out += &format!(
            "<g class=\"tick\" data-t=\"{turn}\" data-a=\"{}\" transform=\"translate({:.1},0)\"{hidden}>{}{below}</g>",
            n(slot),
            x(slot),
            label(AXIS)
        );
    }
    out
}
