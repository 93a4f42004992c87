//! Lines of values over a run: a sum of a parameter over instances (`Deck.load where on`), one parameter (`Oven.total`), and a cap against them.

use crate::lines::Place;
use crate::program::{BOOL, FIRST_STRUCT};
use crate::story::{Mark, Story};

/// A value from a turn on; the first is that before the first turn, at none.
pub type Point = (Option<usize>, i64);

pub struct Series {
    pub name: String,
    pub points: Vec<Point>,
}

/// A cap: its name and its value in the first table, or a number.
pub struct Cap {
    pub name: String,
    pub value: i64,
}

/// The sum of `STRUCT.PARAMETER`, over the instances whose Bool parameter is true with `where PARAMETER`; null instances are left out.
pub fn watched(story: &Story, spelled: &str) -> Result<Series, String> {
    let (place, condition) = match spelled.split_once(" where ") {
        Some((place, condition)) => (place.trim(), Some(condition.trim())),
        None => (spelled.trim(), None),
    };
    let (k, p) = parameter(story, place)?;
    let structure = &story.program.structs[k];
    if structure.parameters[p].of >= FIRST_STRUCT {
        return Err(format!("{place} is a reference, and has no sum"));
    }
    let condition =
        condition.map(|name| parameter(story, &format!("{}.{name}", structure.name))).transpose()?.map(|(_, q)| q);
    if let Some(q) = condition.filter(|&q| structure.parameters[q].of != BOOL) {
        return Err(format!("{}.{} is not a Bool", structure.name, structure.parameters[q].name));
    }
    let mut name = format!("sum of {} of all {}s", structure.parameters[p].name, structure.name);
    if let Some(q) = condition {
        name += &format!(" with {} = true", structure.parameters[q].name);
    }
    let sum = |values: &[Vec<i64>]| {
        let counted =
            values.iter().enumerate().skip(story.program.nulls()).filter(|(label, _)| story.kinds[*label] == k);
        counted.filter(|(_, own)| condition.is_none_or(|q| own[q] != 0)).map(|(_, own)| own[p]).sum()
    };
    Ok(Series { name, points: points(story, sum) })
}

/// One parameter of the first instance of its struct.
pub fn single(story: &Story, spelled: &str) -> Result<Series, String> {
    let place = place(story, spelled)?;
    Ok(own(story, place))
}

/// The line of one parameter of one instance; 0 before the instance is made.
pub fn own(story: &Story, (label, p): Place) -> Series {
    let value = |values: &[Vec<i64>]| values.get(label).map_or(0, |own| own[p]);
    Series { name: story.at((label, p)), points: points(story, value) }
}

pub fn cap(story: &Story, spelled: &str) -> Result<Cap, String> {
    if let Ok(value) = spelled.trim().parse() {
        return Ok(Cap { name: "as given".to_string(), value });
    }
    let place = place(story, spelled)?;
    Ok(Cap { name: story.at(place), value: story.first[place.0][place.1] })
}

/// `STRUCT.PARAMETER` as numbers.
fn parameter(story: &Story, spelled: &str) -> Result<(usize, usize), String> {
    let (structure, name) =
        spelled.trim().split_once('.').ok_or_else(|| format!("{spelled:?} is not STRUCT.PARAMETER"))?;
    let structs = &story.program.structs;
    let k =
        structs.iter().position(|s| s.name == structure).ok_or_else(|| format!("there is no struct {structure}"))?;
    let p = structs[k].parameters.iter().position(|p| p.name == name);
    Ok((k, p.ok_or_else(|| format!("{structure} has no parameter {name}"))?))
}

/// The parameter of the first instance of its struct that is not null.
fn place(story: &Story, spelled: &str) -> Result<Place, String> {
    let (k, p) = parameter(story, spelled)?;
    let label = (story.program.nulls()..story.kinds.len())
        .find(|&label| story.kinds[label] == k && !story.born.contains_key(&label));
    let label = label.ok_or_else(|| format!("the table has no {}", story.program.structs[k].name))?;
    Ok((label, p))
}

/// A value of all values, at first and wherever it changes.
fn points(story: &Story, value: impl Fn(&[Vec<i64>]) -> i64) -> Vec<Point> {
    let made = story.born.keys().copied().min().unwrap_or(story.first.len());
    let mut values: Vec<Vec<i64>> = story.first[..made].to_vec();
    let mut points = vec![(None, value(&values))];
    for event in story.events() {
        match event.mark {
            Mark::Write((label, p), _, new) => values[label][p] = new,
            Mark::Make(label) => values.push(story.first[label].clone()),
            _ => continue,
        }
        let now = value(&values);
        if points.last().is_some_and(|(_, before)| *before != now) {
            points.push((Some(event.turn.turn), now));
        }
    }
    points
}
