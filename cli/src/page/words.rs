//! What a page says in words: the verdict, the races, the key to the marks, and the tables that have as text what the drawing shows.

use super::plot::{Plot, minus};
use super::svg::{esc, rich};
use super::window::Window;
use crate::lines::Place;
use crate::races::Race;
use crate::story::{Item, Mark, Story};
use std::collections::BTreeMap;

/// Races that are listed at most, and those that are not folded.
const MOST_RACES: usize = 40;
const OPEN_RACES: usize = 6;

/// Class, headline and sentence.
pub struct Verdict {
    pub class: &'static str,
    pub head: &'static str,
    pub says: String,
}

/// Whether the watched sum keeps to the cap, where both are asked for.
pub fn verdict(story: &Story, plot: &Plot, watched: bool) -> Option<Verdict> {
    let cap = plot.cap.filter(|_| watched)?;
    let sum = plot.choices.first()?.lines.first()?;
    let (name, value) = (&cap.name, minus(cap.value));
    let most = sum.points.iter().map(|(_, value)| *value).max()?;
    if sum.points[0].1 > cap.value {
        let says = format!(
            "The {} is {} before the first turn; the cap ({name}) is {value}.",
            sum.name,
            minus(sum.points[0].1)
        );
        return Some(Verdict { class: "bad", head: "✗ The first table is over the cap.", says });
    }
    let Some((turn, over)) = plot.past else {
        let says = format!("The {} is never more than {}; the cap ({name}) is {value}.", sum.name, minus(most));
        return Some(Verdict { class: "ok", head: "✓ This order keeps the cap.", says });
    };
    let act = story
        .events()
        .find(|event| event.turn.turn == turn)
        .map_or(String::new(), |event| format!("{} {}", story.name(event.turn.label), event.says));
    let says =
        format!("At turn {turn} {act}. From then on the {} is {}; the cap ({name}) is {value}.", sum.name, minus(over));
    Some(Verdict { class: "bad", head: "✗ This order breaks the cap.", says })
}

/// How the run ended.
pub fn ended(story: &Story) -> String {
    let turns = story.turns;
    match story.number {
        0 => format!("The run ended by itself after {turns} turns."),
        33 => format!("The list of turns was used up after {turns} turns; commands remain."),
        34 => format!(
            "The run stopped after {turns} turns with 34: there were 256 instances, and one more was to be made."
        ),
        _ => format!("The run stopped after {turns} turns with 35: a divisor of zero, or a result outside its type."),
    }
}

/// The parameters that are not as they were at first.
pub fn changed(story: &Story) -> String {
    const MOST: usize = 12;
    let mut last: BTreeMap<Place, i64> = BTreeMap::new();
    for event in story.events() {
        if let Mark::Write(place, _, new) = event.mark {
            last.insert(place, new);
        }
    }
    last.retain(|place, value| story.first[place.0][place.1] != *value);
    let shown: Vec<String> = last
        .iter()
        .take(MOST)
        .map(|(&place, &value)| format!("{} = {}", story.at(place), story.value(place, value)))
        .collect();
    let more = if last.len() > MOST { format!(" and {} more", last.len() - MOST) } else { String::new() };
    if shown.is_empty() {
        "No parameter is other than at first.".to_string()
    } else {
        format!("Changed: {}{more}.", shown.join(", "))
    }
}

pub fn races(window: &Window, plot: &Plot) -> String {
    let races = window.races;
    let past = plot.past.map(|(turn, _)| turn);
    let heading = match races.len() {
        0 => "Races".to_string(),
        count => {
            let reads =
                if count == 1 { "1 read is overtaken".to_string() } else { format!("{count} reads are overtaken") };
            format!("{}{reads}", if past.is_some() { "Why: " } else { "Races: " })
        }
    };
    let mut out = format!("<h2>{heading}</h2>\n");
    if races.is_empty() {
        return out
            + "<p>None: no instance changed a value between another's read of it and what the other did with it. \
            Other orders of the same program may have races.</p>\n";
    }
    let items: Vec<String> =
        races.iter().take(MOST_RACES).enumerate().map(|(k, race)| item(window, race, k + 1, past)).collect();
    let (open, folded) = items.split_at(items.len().min(OPEN_RACES));
    out += &format!("<ol class=\"races\">{}</ol>\n", open.concat());
    if !folded.is_empty() {
        out += &format!(
            "<details><summary>{} more</summary><ol class=\"races\" start=\"{}\">{}</ol></details>\n",
            folded.len(),
            open.len() + 1,
            folded.concat()
        );
    }
    if races.len() > MOST_RACES {
        out += &format!("<p class=\"small mut\">And {} that are not listed.</p>\n", races.len() - MOST_RACES);
    }
    out
}

/// A race of the list, with a button that shows it on the time line.
fn item(window: &Window, race: &Race, number: usize, past: Option<usize>) -> String {
    let trips = if past.is_some_and(|turn| race.late.contains(&turn)) { " <b>This trips the cap.</b>" } else { "" };
    let button = window.slot(race.write).map_or(String::new(), |_| {
        format!(
            " <button class=\"noprint js\" hidden data-go=\"{}\" aria-label=\"Show race {number} on the time line\">show</button>",
            race.write
        )
    });
    format!("<li>{}{trips}{button}</li>", rich(&race.says))
}

/// The key to the marks; what does not occur is left out.
pub fn key(window: &Window) -> String {
    let read = "<circle class=\"rd sh\" cx=\"9\" cy=\"9\" r=\"4\"/>";
    let write = "<rect class=\"wr\" x=\"4.5\" y=\"4.5\" width=\"9\" height=\"9\"/>";
    let ring = format!("{read}<circle class=\"ring\" cx=\"9\" cy=\"9\" r=\"7.5\"/>");
    let late = format!("{write}<rect class=\"late\" x=\"1.5\" y=\"1.5\" width=\"15\" height=\"15\"/>");
    let any = |wanted: fn(&Mark) -> bool| window.events().any(|event| wanted(&event.mark));
    let raced = !window.races.is_empty();
    let entries = [
        (read, "read of a value that another instance writes in this run", any(|mark| matches!(mark, Mark::Read(..)))),
        ("<circle class=\"rd\" cx=\"9\" cy=\"9\" r=\"4\"/>", "other read", any(|mark| matches!(mark, Mark::Read(..)))),
        (write, "write", any(|mark| matches!(mark, Mark::Write(..)))),
        (
            "<rect class=\"dr\" x=\"5\" y=\"5\" width=\"8\" height=\"8\"/>",
            "write to a null instance: dropped",
            any(|mark| *mark == Mark::Dropped),
        ),
        (
            "<path class=\"iff\" d=\"M9 3L14 9L9 15L4 9Z\"/>",
            "if (dashed: its body is left out)",
            any(|mark| matches!(mark, Mark::If(_))),
        ),
        ("<path class=\"cons\" d=\"M4 9H14M9 4V14\"/>", "makes an instance", any(|mark| matches!(mark, Mark::Make(_)))),
        ("<path class=\"ot\" d=\"M9 5V13\"/>", "other command", true),
        (&ring, "read that is overtaken (a race)", raced),
        ("<path class=\"race\" d=\"M1 9H17\"/>", "from that read to the write that overtakes it", raced),
        (&late, "act that still rests on the old value", raced),
        ("<rect class=\"mv\" x=\"6\" y=\"1\" width=\"5\" height=\"16\"/>", "the schedule moves", true),
        ("<rect class=\"stat\" x=\"0\" y=\"3\" width=\"18\" height=\"12\"/>", "statement being run", true),
        (
            "<rect class=\"val\" x=\"0\" y=\"3\" width=\"18\" height=\"12\"/>",
            "value of a parameter",
            any(|mark| matches!(mark, Mark::Write(..))),
        ),
    ];
    let item = |(shape, says, _): &(&str, &str, bool)| {
        format!("<li><svg width=\"18\" height=\"18\" aria-hidden=\"true\">{shape}</svg>{says}</li>")
    };
    let items: String = entries.iter().filter(|(_, _, occurs)| *occurs).map(item).collect();
    format!("<ul class=\"key\">{items}</ul>\n")
}

/// What a turn has to do with races and with the cap.
pub fn notes(window: &Window, plot: &Plot, turn: usize) -> Vec<String> {
    let mut notes = Vec::new();
    for (k, race) in window.races.iter().enumerate().take(MOST_RACES) {
        let k = k + 1;
        if turn == race.read {
            notes.push(format!("Race {k}: what is read here is overtaken by the write of turn {}.", race.write));
        }
        if turn == race.write {
            notes.push(format!("Race {k}: this write overtakes the read of turn {}.", race.read));
        }
        if race.late.contains(&turn) {
            notes.push(format!(
                "Race {k}: this still rests on the read of turn {}, which turn {} has overtaken.",
                race.read, race.write
            ));
        }
    }
    if let (Some((past, sum)), Some(cap)) = (plot.past.filter(|(past, _)| *past == turn), plot.cap) {
        notes.push(format!("Turn {past} is the first past the cap: {} is more than {}.", minus(sum), minus(cap.value)));
    }
    notes
}

/// The same in short, for a table.
fn note(window: &Window, plot: &Plot, turn: usize) -> String {
    let reads = |wanted: &dyn Fn(&Race) -> bool| {
        let turns: Vec<String> =
            window.races.iter().filter(|race| wanted(race)).map(|race| race.read.to_string()).collect();
        (!turns.is_empty()).then(|| format!("turn{} {}", if turns.len() == 1 { "" } else { "s" }, turns.join(", ")))
    };
    let overtakes = reads(&|race| race.write == turn).map(|turns| format!("overtakes what {turns} read"));
    let rests =
        reads(&|race| race.late.contains(&turn)).map(|turns| format!("rests on what {turns} read, overtaken since"));
    let past = plot.past.filter(|(past, _)| *past == turn).map(|_| "first turn past the cap".to_string());
    [overtakes, rests, past].into_iter().flatten().collect::<Vec<String>>().join("; ")
}

/// The writes as a table.
pub fn writes(window: &Window, plot: &Plot) -> String {
    let story = window.story;
    let mut rows = String::new();
    for event in window.events() {
        let Mark::Write(place, old, new) = event.mark else { continue };
        let cells = [
            ("Turn", "num", event.turn.turn.to_string()),
            ("Who writes", "", esc(&story.name(event.turn.label))),
            ("What", "nw", esc(&story.at(place))),
            ("Old", "num", esc(&story.value(place, old))),
            ("New", "num", esc(&story.value(place, new))),
            ("Statement", "", format!("<code>{}</code>", esc(&event.statement))),
            ("Note", "", esc(&note(window, plot, event.turn.turn))),
        ];
        let cell = |(head, class, inner): &(&str, &str, String)| {
            format!("<td role=\"cell\" data-h=\"{head}\" class=\"{class}\">{inner}</td>")
        };
        rows += &format!("<tr role=\"row\">{}</tr>\n", cells.iter().map(cell).collect::<String>());
    }
    let mut out = "<h2>Writes</h2>\n".to_string();
    if rows.is_empty() {
        out += "<p>None.</p>\n";
    } else {
        out += &format!(
            "<div class=\"wrap\" tabindex=\"0\" role=\"region\" aria-label=\"Writes\"><table class=\"cards\" role=\"table\">\
            <thead><tr role=\"row\"><th class=\"num\">Turn</th>\
            <th>Who writes</th><th>What</th><th class=\"num\">Old</th><th class=\"num\">New</th>\
            <th>Statement</th><th>Note</th></tr></thead><tbody>\n{rows}</tbody></table></div>\n"
        );
    }
    match window.events().filter(|event| event.mark == Mark::Dropped).count() {
        0 => out,
        1 => out + "<p class=\"small mut\">1 write to a null instance is dropped and not in this table.</p>\n",
        count => {
            out + &format!(
                "<p class=\"small mut\">{count} writes to null instances are dropped and not in this table.</p>\n"
            )
        }
    }
}

/// Every turn and move as a table, folded.
pub fn turns(window: &Window) -> String {
    let story = window.story;
    let mut rows = String::new();
    for (i, item) in window.items().iter().enumerate() {
        rows += &match item {
            Item::Move { .. } => format!(
                "<tr><td></td><td>schedule</td><td colspan=\"3\">{}</td></tr>\n",
                esc(&story.moved(window.items.0 + i))
            ),
            Item::Event(event) => format!(
                "<tr><td class=\"num\">{}</td><td>{}</td><td>{}</td><td><code>{}</code></td><td><code>{}</code></td></tr>\n",
                event.turn.turn,
                esc(&story.name(event.turn.label)),
                esc(&event.says),
                esc(&stack(story, &event.turn.stack)),
                esc(&event.turn.command)
            ),
        };
    }
    format!(
        "<details><summary>All {} turns as a table</summary><div class=\"wrap\"><table class=\"small\"><thead><tr><th>Turn</th><th>Who</th><th>Does</th>\
        <th>Stack after it, top last</th><th>Command</th></tr></thead><tbody>\n{rows}</tbody></table></div></details>\n",
        window.events().count()
    )
}

/// A stack with names, the top last.
pub fn stack(story: &Story, stack: &[crate::lines::Tagged]) -> String {
    stack.iter().map(|value| story.shown(*value)).collect::<Vec<String>>().join(", ")
}
