//! Pieces of SVG and HTML. A place along the time line is a slot, one for each turn and each move; `data-a` and `data-b` keep slots for the page's script,
//! which lays them out anew at each zoom.

/// Pixels of a slot, and before the first one.
pub const PX: f64 = 11.0;
const PAD: f64 = 6.0;

/// Pixels of a letter, as estimated.
const LETTER: f64 = 6.9;

pub fn x(slot: f64) -> f64 {
    PAD + slot * PX
}

/// A number with two decimals at most.
pub fn n(value: f64) -> String {
    let text = format!("{value:.2}");
    text.trim_end_matches('0').trim_end_matches('.').to_string()
}

pub fn esc(text: &str) -> String {
    let mut out = String::with_capacity(text.len());
    for c in text.chars() {
        match c {
            '&' => out += "&amp;",
            '<' => out += "&lt;",
            '>' => out += "&gt;",
            '"' => out += "&quot;",
            '\'' => out += "&#39;",
            c if c.is_control() && c != '\n' && c != '\t' => out.push('\u{fffd}'),
            c => out.push(c),
        }
    }
    out
}

/// A sentence whose parts in backquotes are code.
pub fn rich(text: &str) -> String {
    let parts = text.split('`').enumerate();
    parts.map(|(i, part)| if i % 2 == 1 { format!("<code>{}</code>", esc(part)) } else { esc(part) }).collect()
}

/// As much of a text as fits a width.
pub fn cut(text: &str, width: f64) -> String {
    let room = ((width - 8.0) / LETTER).floor();
    let count = text.chars().count();
    if room >= count as f64 {
        return text.to_string();
    }
    if room < 3.0 {
        return String::new();
    }
    text.chars().take(room as usize - 1).chain(std::iter::once('…')).collect()
}

/// A bar from slot to slot, with a gap of so many pixels after it.
pub fn rect(slots: (f64, f64), y: f64, height: f64, class: &str, gap: u32, tip: &str) -> String {
    let (a, b) = slots;
    let width = (x(b) - x(a) - f64::from(gap)).max(1.0);
    let title = if tip.is_empty() { String::new() } else { format!("<title>{}</title>", esc(tip)) };
    format!(
        "<rect class=\"{class}\" y=\"{}\" height=\"{}\" x=\"{:.1}\" width=\"{width:.1}\" data-a=\"{}\" data-b=\"{}\" data-g=\"{gap}\" rx=\"2\">{title}</rect>",
        n(y),
        n(height),
        x(a),
        n(a),
        n(b)
    )
}

/// A text in a bar. `alt` is where the bar before it begins and how long its text is: there may be more room to the left.
pub fn text(slots: (f64, f64), y: f64, class: &str, full: &str, alt: Option<(f64, usize)>) -> String {
    let (a, b) = slots;
    let alt = alt.map_or(String::new(), |(begin, length)| format!(" data-alt=\"{},{length}\"", n(begin)));
    format!(
        "<text{alt} class=\"{class}\" y=\"{}\" x=\"{:.1}\" data-a=\"{}\" data-b=\"{}\" data-full=\"{}\">{}</text>",
        n(y),
        x(a) + 4.0,
        n(a),
        n(b),
        esc(full),
        esc(&cut(full, x(b) - x(a)))
    )
}

/// A group at a slot.
pub fn at(slot: f64, class: &str, inner: &str) -> String {
    let class = if class.is_empty() { String::new() } else { format!(" class=\"{class}\"") };
    format!("<g{class} data-a=\"{}\" transform=\"translate({:.1},0)\">{inner}</g>", n(slot), x(slot))
}

/// A line through all of a drawing at a height.
pub fn guide(class: &str, y: f64) -> String {
    format!("<line class=\"{class}\" x1=\"0\" x2=\"1000000\" y1=\"{0}\" y2=\"{0}\"/>", n(y))
}

/// A text for the data of the page's script.
pub fn json(text: &str) -> String {
    let mut out = String::from("\"");
    for c in text.chars() {
        match c {
            '"' | '\\' => out.extend(['\\', c]),
            '<' => out += "\\u003c",
            c if c.is_control() => out += &format!("\\u{:04x}", c as u32),
            c => out.push(c),
        }
    }
    out + "\""
}

#[cfg(test)]
mod tests {
    use super::*;

    #[test]
    fn nothing_of_a_text_is_taken_for_markup() {
        assert_eq!(esc("a<b && \"c\"'"), "a&lt;b &amp;&amp; &quot;c&quot;&#39;");
        assert_eq!(rich("has `a < b` in it"), "has <code>a &lt; b</code> in it");
        assert_eq!(json("</script>\"\\\n"), "\"\\u003c/script>\\\"\\\\\\u000a\"");
    }

    #[test]
    fn texts_are_cut_to_their_width() {
        assert_eq!(cut("oven.total", 200.0), "oven.total");
        assert_eq!(cut("oven.total", 50.0), "oven.…");
        assert_eq!(cut("oven.total", 20.0), "");
        assert_eq!((n(1.0), n(0.5), n(-0.25)), ("1".to_string(), "0.5".to_string(), "-0.25".to_string()));
    }
}
