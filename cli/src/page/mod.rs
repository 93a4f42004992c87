//! A run as one page of HTML that needs no network: lanes of instances over time, marks for commands, races in red, a line against a cap. Without a script the
//! page has everything but zoom, the choice of a line and the panel; what the drawing shows is there as text too.

mod lanes;
mod marks;
mod plot;
mod svg;
mod window;
mod words;

use crate::races::Race;
use crate::series::{self, Series};
use crate::story::{Item, Story};
use lanes::{Lanes, SCHEDULE};
use plot::Plot;
use svg::{PX, esc, json, n, x};
use window::Window;
use words::Verdict;

/// What is asked of a page.
pub struct Wish<'a> {
    pub title: String,
    pub watch: Option<&'a str>,
    pub also: Option<&'a str>,
    pub cap: Option<&'a str>,
    pub from: Option<usize>,
    pub to: Option<usize>,
}

/// The page of a run, and whether a watched sum keeps to the cap. Where a line is asked for that cannot be drawn, why.
pub fn page(story: &Story, races: &[Race], wish: &Wish) -> Result<(String, Option<Verdict>), String> {
    let cap = wish.cap.map(|spelled| series::cap(story, spelled)).transpose()?;
    let watch = wish.watch.map(|spelled| series::watched(story, spelled)).transpose()?;
    let also = wish.also.map(|spelled| series::single(story, spelled)).transpose()?;
    let lines: Vec<Series> = watch.into_iter().chain(also).collect();
    let window = Window::new(story, races, wish.from, wish.to);
    let (labels, left_out) = window.lanes();
    let lanes = lanes::lanes(&window, &labels);
    let plot = Plot::new(&window, lines, cap.as_ref(), lanes.end);
    let verdict = words::verdict(story, &plot, wish.watch.is_some());
    let mut out = head(&wish.title);
    out += &format!("<h1>{}</h1>\n<p>{} {}</p>\n", esc(&wish.title), words::ended(story), esc(&words::changed(story)));
    out += "<p class=\"mut small\">The number after a name is the instance’s label in the table. Null instances take the steps too.</p>\n";
    let mut alt = format!("Time line of {} turns. The tables below have the same as text.", window.events().count());
    if let Some(verdict) = &verdict {
        out += &format!(
            "<div class=\"verdict {}\"><b>{}</b><br>{}</div>\n",
            verdict.class,
            verdict.head,
            esc(&verdict.says)
        );
        alt = format!("{alt} {} {}", verdict.head, verdict.says);
    }
    out += &words::races(&window, &plot);
    out += &part(&window);
    out += "<h2 id=\"chart\">The run, turn by turn</h2>\n";
    out += &words::key(&window);
    out += &controls(&plot);
    out += &chart(&window, &lanes, &plot, &alt);
    out += &below(&window, &plot, &left_out);
    out += &format!("<script type=\"application/json\" id=\"data\">{}</script>\n", data(&window, &lanes, &plot));
    out += &format!("<script>\n{}</script>\n</body>\n</html>\n", include_str!("trace.js"));
    Ok((out, verdict))
}

fn head(title: &str) -> String {
    format!(
        "<!doctype html>\n<html lang=\"en\">\n<head>\n<meta charset=\"utf-8\">\n<meta name=\"viewport\" content=\"width=device-width,initial-scale=1\">\n\
        <title>{}</title>\n<style>\n{}{}</style>\n</head>\n<body>\n",
        esc(title),
        include_str!("page.css"),
        include_str!("trace.css")
    )
}

/// Which part of a long run is drawn.
fn part(window: &Window) -> String {
    match window.turns().filter(|_| window.is_part()) {
        Some((first, last)) => format!(
            "<p><b>Only turns {first} to {last} of {} are drawn and listed below.</b> Others: <code>--from</code> and <code>--to</code>.</p>\n",
            window.story.turns
        ),
        None => String::new(),
    }
}

fn controls(plot: &Plot) -> String {
    let mut out = "<div class=\"bar noprint js\" hidden><button id=\"out\" aria-label=\"Zoom out\">−</button>\
        <button id=\"in\" aria-label=\"Zoom in\">+</button>\
        <button id=\"fit\">Whole run</button><span class=\"small mut\"><span id=\"zoomv\">11</span> px a turn</span>"
        .to_string();
    if plot.choices.len() > 1 {
        out += "<label>Line: <select id=\"line\">";
        for (k, choice) in plot.choices.iter().enumerate() {
            let names: Vec<&str> = choice.lines.iter().map(|line| line.name.as_str()).collect();
            out += &format!("<option value=\"{k}\">{}</option>", esc(&names.join(" and ")));
        }
        out += "</select></label>";
    }
    if plot.past.is_some() {
        out += "<button id=\"gocap\">First turn past the cap</button>";
    }
    out + "</div>\n"
}

fn chart(window: &Window, lanes: &Lanes, plot: &Plot, alt: &str) -> String {
    let height = plot.height(lanes.end);
    let width = x(window.end()) + 8.0;
    let (lines, values) = plot.drawn(window, lanes.width);
    let marks = marks::marks(window, lanes);
    let has_lines = !plot.choices.is_empty();
    let ticks = lanes::ticks(window, has_lines.then_some(plot.base + 18.0));
    let cursor = format!(
        "<g id=\"cursor\" data-a=\"0\" style=\"display:none\"><line class=\"cursor\" y1=\"{SCHEDULE}\" y2=\"{}\"/></g>",
        n(if has_lines { plot.base } else { lanes.end })
    );
    let parts = [
        &ticks,
        &lanes::schedule(window, lanes.end),
        &lanes.bands,
        &lines,
        &cursor,
        &marks.flows,
        &marks.arcs,
        &plot.past_line(window, SCHEDULE, lanes.end),
        &lanes.labels,
        &marks.marks,
    ];
    let drawing =
        parts.map(|part| part.replace("><g ", ">\n<g ").replace("><rect class=\"s", ">\n<rect class=\"s")).join("\n");
    format!(
        "<div class=\"chart\"><div class=\"plot\"><div class=\"names\"><svg width=\"{0}\" height=\"{1}\" aria-hidden=\"true\">{2}{values}</svg></div>\n\
        <div class=\"scroll\" id=\"scroll\" tabindex=\"0\" role=\"region\" aria-label=\"Time line, scrolls to the right\">\n\
        <svg id=\"svg\" width=\"{3}\" height=\"{1}\" viewBox=\"0 0 {3} {1}\" role=\"img\" aria-label=\"{4}\">\
        <defs><marker id=\"tip\" viewBox=\"0 0 8 8\" refX=\"7\" refY=\"4\" \
        markerWidth=\"5\" markerHeight=\"5\" orient=\"auto\"><path d=\"M0 0L8 4L0 8Z\" class=\"tip\"/></marker></defs>\n\
        {drawing}</svg></div></div>\n{5}</div>\n",
        n(lanes.width),
        n(height),
        lanes.names,
        n(width),
        esc(alt),
        panel(window)
    )
}

/// The panel that shows the turn under the pointer or the slider.
fn panel(window: &Window) -> String {
    let (first, last) = window.turns().unwrap_or((0, 0));
    format!(
        "<div class=\"now noprint js\" hidden><div class=\"turn\"><button id=\"prev\" aria-label=\"One turn back\">◀</button><label for=\"turn\">Turn</label>\
        <input id=\"turn\" type=\"range\" min=\"{first}\" max=\"{last}\" value=\"{first}\"><button id=\"next\" aria-label=\"One turn on\">▶</button></div>\
        <div id=\"now\" aria-live=\"polite\"><p class=\"mut\">\
        Point at the time line, tap it, or move the slider: the turn and its stack are shown here.</p></div></div>\n"
    )
}

/// What comes after the drawing: the line's caption, the tables and the program's text.
fn below(window: &Window, plot: &Plot, left_out: &[usize]) -> String {
    let mut out = String::new();
    if let Some(caption) = plot.captions().first() {
        out += &format!(
            "<p class=\"small\"><b>The line at the bottom:</b> <span id=\"cap\">{}</span></p>\n",
            esc(caption)
        );
    }
    if !left_out.is_empty() {
        let names: Vec<String> = left_out.iter().take(40).map(|&label| window.story.name(label)).collect();
        let more = left_out.len().checked_sub(41).map_or(String::new(), |more| format!(" and {} more", more + 1));
        out += &format!(
            "<p class=\"small mut\">Not drawn, since nothing happens to them here or there are too many: {}{more}.</p>\n",
            esc(&names.join(", "))
        );
    }
    out += &words::writes(window, plot);
    if let Some(source) = &window.story.program.source {
        out += &format!(
            "<details><summary>Program text</summary><pre><code>{}</code></pre></details>\n",
            esc(&String::from_utf8_lossy(source))
        );
    }
    out + &words::turns(window)
}

/// What the page's script asks for.
fn data(window: &Window, lanes: &Lanes, plot: &Plot) -> String {
    let number = |value: Option<usize>| value.map_or("null".to_string(), |value| value.to_string());
    let slots: Vec<String> = window.events().map(|event| n(window.slot(event.turn.turn).unwrap_or(0.0))).collect();
    let turn = |item: &Item| number(if let Item::Event(event) = item { Some(event.turn.turn) } else { None });
    let turns: Vec<String> = window.items().iter().map(turn).collect();
    let captions: Vec<String> = plot.captions().iter().map(|caption| json(caption)).collect();
    let past = plot.past.map(|(turn, _)| turn).filter(|turn| window.slot(*turn).is_some());
    let see = window
        .races
        .last()
        .map(|race| race.write)
        .or(past)
        .and_then(|turn| window.slot(turn))
        .map(|slot| slot as usize);
    let (first, last) = window.turns().unwrap_or((0, 0));
    format!(
        "{{\"px\":{PX},\"n\":{},\"h\":{},\"first\":{first},\"last\":{last},\"past\":{},\"see\":{},\n\
        \"slot\":[{}],\n\"turn\":[{}],\n\"caps\":[{}],\n\"t\":[\n{}]}}",
        window.count(),
        n(plot.height(lanes.end)),
        number(past),
        number(see),
        slots.join(","),
        turns.join(","),
        captions.join(","),
        told(window, plot)
    )
}

/// What the panel shows of each turn: who acts, the step, the statement, the act, the stack and notes.
fn told(window: &Window, plot: &Plot) -> String {
    let story = window.story;
    let turns = window.events().map(|event| {
        let notes: Vec<String> = words::notes(window, plot, event.turn.turn).iter().map(|note| json(note)).collect();
        let stack = words::stack(story, &event.turn.stack);
        let parts = [
            &story.name(event.turn.label),
            story.program.step_name(event.turn.step),
            &event.statement,
            &event.says,
            &stack,
        ];
        format!("[{},[{}]]", parts.map(json).join(","), notes.join(","))
    });
    turns.collect::<Vec<String>>().join(",\n")
}
