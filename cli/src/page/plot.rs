//! The lines at the bottom of a page: the watched sum and a parameter against the cap, or any parameter that is written.

use super::svg::{at, esc, guide, n, rect, x};
use super::window::Window;
use crate::lines::Place;
use crate::series::{Cap, Point, Series, own};
use crate::story::Mark;
use std::collections::BTreeSet;

/// The height of the plot, and what is between it and the lanes.
const HEIGHT: f64 = 120.0;
const GAP: f64 = 44.0;

/// Parameters that the choice of lines offers at most.
const MOST_CHOICES: usize = 40;

/// One choice: a line or two, and whether the cap is drawn with them.
pub struct Choice {
    pub lines: Vec<Series>,
    pub capped: bool,
}

pub struct Plot<'w> {
    pub choices: Vec<Choice>,
    pub cap: Option<&'w Cap>,
    /// The first turn after which the watched sum is over the cap, and the sum.
    pub past: Option<(usize, i64)>,
    pub base: f64,
    top: f64,
}

impl<'w> Plot<'w> {
    pub fn new(window: &Window, watched: Vec<Series>, cap: Option<&'w Cap>, lanes_end: f64) -> Plot<'w> {
        let over = |points: &[Point]| {
            points.iter().find_map(|(turn, value)| {
                turn.filter(|_| cap.is_some_and(|cap| *value > cap.value)).map(|turn| (turn, *value))
            })
        };
        let past = watched.first().and_then(|sum| over(&sum.points));
        let also = watched.get(1).map(|line| line.name.clone());
        let mut choices = Vec::new();
        if !watched.is_empty() {
            choices.push(Choice { lines: watched, capped: cap.is_some() });
        }
        let written = window
            .events()
            .filter_map(|event| if let Mark::Write(place, ..) = event.mark { Some(place) } else { None });
        let written: BTreeSet<Place> = written.filter(|place| window.story.is_number(*place)).collect();
        for place in written.into_iter().take(MOST_CHOICES) {
            let line = own(window.story, place);
            let capped = cap.is_some() && also.as_ref() == Some(&line.name);
            choices.push(Choice { lines: vec![line], capped });
        }
        let top = lanes_end + GAP;
        Plot { choices, cap, past, base: top + HEIGHT, top }
    }

    pub fn height(&self, lanes_end: f64) -> f64 {
        if self.choices.is_empty() { lanes_end + 30.0 } else { self.base + 34.0 }
    }

    /// The lowest and the highest value of a choice's scale; 0 is on it.
    fn scale(&self, choice: &Choice) -> (i64, i64) {
        let values = choice.lines.iter().flat_map(|line| line.points.iter().map(|(_, value)| *value));
        let cap = self.cap.filter(|_| choice.capped).map(|cap| cap.value);
        let all: Vec<i64> = values.chain([0]).chain(cap).collect();
        let low = all.iter().copied().min().unwrap_or(0);
        (low, all.iter().copied().max().unwrap_or(0).max(low + 1))
    }

    fn y(&self, scale: (i64, i64), value: i64) -> f64 {
        self.base - (value - scale.0) as f64 * HEIGHT / (scale.1 - scale.0) as f64
    }

    /// The lines, a group for each choice of which the first is shown, and the values beside them in the column of names.
    pub fn drawn(&self, window: &Window, width: f64) -> (String, String) {
        let (mut lines, mut names) = (String::new(), String::new());
        for (k, choice) in self.choices.iter().enumerate() {
            let scale = self.scale(choice);
            let open =
                format!("<g class=\"series\" data-k=\"{k}\"{}>", if k == 0 { "" } else { " style=\"display:none\"" });
            let cap = self.cap.filter(|_| choice.capped).map(|cap| cap.value);
            let shown: BTreeSet<i64> = [scale.0, scale.1].into_iter().chain(cap).collect();
            lines += &open;
            names += &open;
            for value in shown {
                let y = self.y(scale, value);
                let is_cap = cap == Some(value);
                lines += &guide("guide", y);
                names += &format!(
                    "<text class=\"sm{}\" x=\"{}\" y=\"{}\" text-anchor=\"end\">{}{}</text>",
                    if is_cap { " badt" } else { "" },
                    n(width - 6.0),
                    n(y + 4.0),
                    if is_cap { "cap " } else { "" },
                    minus(value)
                );
            }
            lines += &self.against_cap(window, scale, cap, k);
            for (which, line) in choice.lines.iter().enumerate() {
                lines += &self.line(window, scale, line, which);
            }
            lines += "</g>";
            names += "</g>";
        }
        (lines, names)
    }

    /// The cap, and the part over it of the watched sum.
    fn against_cap(&self, window: &Window, scale: (i64, i64), cap: Option<i64>, k: usize) -> String {
        let Some(cap) = cap else { return String::new() };
        let mut out = guide("cap", self.y(scale, cap));
        let watched = self.choices.first().and_then(|choice| choice.lines.first()).filter(|_| k == 0);
        for pair in watched.map_or(Vec::new(), |line| within(window, &line.points)).windows(2) {
            let ((from, value), (to, _)) = (pair[0], pair[1]);
            if value > cap {
                out +=
                    &rect((from, to), self.y(scale, value), self.y(scale, cap) - self.y(scale, value), "over", 0, "");
            }
        }
        out
    }

    fn line(&self, window: &Window, scale: (i64, i64), line: &Series, which: usize) -> String {
        let lower = 1.5 * which as f64;
        let mut points = Vec::new();
        for pair in within(window, &line.points).windows(2) {
            let y = self.y(scale, pair[0].1) + lower;
            points.extend([(pair[0].0, y), (pair[1].0, y)]);
        }
        let kept: Vec<String> = points.iter().map(|(slot, y)| format!("{},{y:.1}", n(*slot))).collect();
        let path: Vec<String> = points
            .iter()
            .enumerate()
            .map(|(i, (slot, y))| format!("{}{:.1} {y:.1}", if i == 0 { "M" } else { "L" }, x(*slot)))
            .collect();
        let told =
            line.points.iter().take(60).map(|(turn, value)| {
                turn.map_or(format!("{value} at first"), |turn| format!("{value} from turn {turn}"))
            });
        let told: Vec<String> = told.collect();
        format!(
            "<path class=\"s{}\" data-pts=\"{}\" d=\"{}\"><title>{}</title></path>",
            which.min(1),
            kept.join(";"),
            path.concat(),
            esc(&format!("{}: {}", line.name, told.join(", ")))
        )
    }

    /// The first turn past the cap, as a line through all lanes with its words.
    pub fn past_line(&self, window: &Window, from: f64, lanes_end: f64) -> String {
        let (Some((turn, sum)), Some(cap)) = (self.past, self.cap) else { return String::new() };
        let Some(slot) = window.middle(turn) else { return String::new() };
        let line = |a: f64, b: f64| format!("<line class=\"past\" y1=\"{}\" y2=\"{}\"/>", n(a), n(b));
        let said = format!("turn {turn}: {} is over the cap of {}", minus(sum), minus(cap.value));
        let words = format!(
            "<text class=\"badt halo\" x=\"-6\" text-anchor=\"end\" y=\"{}\">{}</text>",
            n(self.top - 12.0),
            esc(&said)
        );
        at(slot, "", &line(from, lanes_end))
            + "<g class=\"series\" data-k=\"0\">"
            + &at(slot, "", &line(lanes_end, self.base))
            + &at(slot, "pastlab", &words)
            + "</g>"
    }

    /// What each choice shows, in words.
    pub fn captions(&self) -> Vec<String> {
        let caption = |choice: &Choice| {
            let (low, high) = self.scale(choice);
            let second = choice.lines.get(1).map_or(String::new(), |line| {
                format!(", {} (dotted, drawn a little lower where the two are equal)", line.name)
            });
            let cap = self.cap.filter(|_| choice.capped);
            let cap = cap.map_or(String::new(), |cap| {
                format!(", against the cap, {} = {} (dashed)", cap.name, minus(cap.value))
            });
            format!(
                "{} (solid){second}{cap}. The scale goes from {} to {}.",
                choice.lines[0].name,
                minus(low),
                minus(high)
            )
        };
        self.choices.iter().map(caption).collect()
    }
}

/// The points of a line within the window, each at its slot; the last one again at the window's end.
fn within(window: &Window, points: &[Point]) -> Vec<(f64, i64)> {
    let first = window.turns().map_or(0, |(first, _)| first);
    let before =
        points.iter().rev().find(|(turn, _)| turn.is_none_or(|turn| turn < first)).map_or(0, |(_, value)| *value);
    let inside = points.iter().filter_map(|(turn, value)| Some((window.middle((*turn)?)?, *value)));
    let mut all: Vec<(f64, i64)> = std::iter::once((0.0, before)).chain(inside).collect();
    let last = all[all.len() - 1].1;
    all.push((window.end(), last));
    all
}

/// A number with a real minus sign.
pub fn minus(value: i64) -> String {
    value.to_string().replace('-', "−")
}
