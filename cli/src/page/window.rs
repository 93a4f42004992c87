//! The part of a run that a page draws: a slot for each turn and each move in it.

use crate::races::Race;
use crate::story::{Event, Item, Story};
use std::collections::{BTreeMap, BTreeSet, HashMap};

/// Turns that are drawn at most where no part is asked for: more would be too much for a browser.
pub const MOST_TURNS: usize = 4_000;

/// Lanes that are drawn at most.
const MOST_LANES: usize = 60;

pub struct Window<'s> {
    pub story: &'s Story<'s>,
    pub races: &'s [Race],
    /// The items that are drawn: from the first to before the second.
    pub items: (usize, usize),
    slots: HashMap<usize, usize>,
}

impl<'s> Window<'s> {
    /// The window from a turn to a turn, both in it.
    pub fn new(story: &'s Story<'s>, races: &'s [Race], from: Option<usize>, to: Option<usize>) -> Window<'s> {
        let from = from.unwrap_or(0);
        let to = to.unwrap_or(from + MOST_TURNS - 1);
        let turn = |item: &Item| match item {
            Item::Event(event) => Some(event.turn.turn),
            Item::Move { .. } => None,
        };
        let first =
            story.items.iter().position(|item| turn(item).is_some_and(|t| t >= from)).unwrap_or(story.items.len());
        let begin = if from == 0 { 0 } else { first };
        let end = story.items.iter().position(|item| turn(item).is_some_and(|t| t > to)).unwrap_or(story.items.len());
        let end = end.max(begin);
        let slots = story.items[begin..end].iter().enumerate().filter_map(|(i, item)| Some((turn(item)?, i))).collect();
        Window { story, races, items: (begin, end), slots }
    }

    /// How many slots there are; one at least.
    pub fn count(&self) -> usize {
        (self.items.1 - self.items.0).max(1)
    }

    pub fn end(&self) -> f64 {
        self.count() as f64
    }

    pub fn slot(&self, turn: usize) -> Option<f64> {
        self.slots.get(&turn).map(|slot| *slot as f64)
    }

    /// The middle of a turn's slot.
    pub fn middle(&self, turn: usize) -> Option<f64> {
        self.slot(turn).map(|slot| slot + 0.5)
    }

    pub fn items(&self) -> &'s [Item] {
        &self.story.items[self.items.0..self.items.1]
    }

    pub fn events(&self) -> impl Iterator<Item = &'s Event> {
        self.items().iter().filter_map(|item| match item {
            Item::Event(event) => Some(&**event),
            Item::Move { .. } => None,
        })
    }

    /// The first and the last turn that is drawn.
    pub fn turns(&self) -> Option<(usize, usize)> {
        let first = self.events().next()?.turn.turn;
        Some((first, self.events().last()?.turn.turn))
    }

    /// Whether turns of the run are left out.
    pub fn is_part(&self) -> bool {
        self.events().count() < self.story.turns
    }

    /// The instances to which anything happens, null ones last; where there are too many, those in a race first. And those that are not drawn.
    pub fn lanes(&self) -> (Vec<usize>, Vec<usize>) {
        let nulls = self.story.program.nulls();
        let mut happens: BTreeSet<usize> = self.events().map(|event| event.turn.label).collect();
        happens.extend(self.events().filter_map(|event| event.turn.wrote).map(|((label, _), ..)| label));
        let mut ranks: BTreeMap<usize, u8> =
            happens.iter().map(|&label| (label, u8::from(label < nulls) + 1)).collect();
        let by_turn = |turn: usize| self.events().find(|event| event.turn.turn == turn).map(|event| event.turn.label);
        if happens.len() > MOST_LANES {
            let raced = self.races.iter().flat_map(|race| [race.read, race.write]).filter_map(by_turn);
            ranks.extend(raced.take(2 * MOST_LANES).map(|label| (label, 0)));
        }
        let mut chosen: Vec<usize> = ranks.keys().copied().collect();
        chosen.sort_by_key(|label| (ranks[label], *label));
        chosen.truncate(MOST_LANES);
        chosen.sort_by_key(|&label| (label < nulls, label));
        let left_out = (0..self.story.kinds.len())
            .filter(|label| !chosen.contains(label) && (*label >= nulls || happens.contains(label)));
        (chosen.clone(), left_out.collect())
    }
}
