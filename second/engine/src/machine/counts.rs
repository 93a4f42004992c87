//! 02 §14: the orders of a started step, each as its sequence of acting labels.
//! Every sequence is followed on a state of its own and put into a set, so that
//! the counts are the sizes of three sets. Where there are too many sequences for
//! that, they are summed: a state that several sequences meet in is followed once,
//! with how many they are.

use super::*;
use std::collections::{BTreeMap, BTreeSet};

/// Sequences that complete a step with a parameter true, with it false, and
/// that stop with 34 or 35, the label of the refused command included.
#[derive(Default)]
pub struct Orders {
    pub with_true: BTreeSet<Vec<u8>>,
    pub with_false: BTreeSet<Vec<u8>>,
    pub stopped: BTreeSet<Vec<u8>>,
}

impl Orders {
    /// The sizes of the three sets.
    pub fn counts(&self) -> [usize; 3] {
        [self.with_true.len(), self.with_false.len(), self.stopped.len()]
    }
}

impl<'p> Machine<'p> {
    /// The sequences of the step that these parts start, by the value of a
    /// parameter of a label at their end.
    pub fn orders(mut self, parts: &Parts, label: usize, parameter: usize) -> Orders {
        let mut orders = Orders::default();
        self.start(parts);
        self.follow(label, parameter, &mut Vec::new(), &mut orders);
        orders
    }

    fn follow(&self, label: usize, parameter: usize, taken: &mut Vec<u8>, orders: &mut Orders) {
        if self.holding == 0 {
            let truth = self.instances[label].variables[parameter] == 1;
            let ended = if truth { &mut orders.with_true } else { &mut orders.with_false };
            ended.insert(taken.clone());
            return;
        }
        for place in 0..self.holders.len() {
            let mut next = self.apart();
            taken.push(self.holders[place]);
            match next.turn(place as u8) {
                Ok(()) => next.follow(label, parameter, taken, orders),
                Err(_) => drop(orders.stopped.insert(taken.clone())),
            }
            taken.pop();
        }
    }

    /// The three counts by sums over states, turn by turn.
    pub fn sums(mut self, parts: &Parts, label: usize, parameter: usize) -> [usize; 3] {
        self.start(parts);
        let mut sums = [0; 3];
        let mut level = BTreeMap::from([(self.whole(), (self, 1))]);
        while !level.is_empty() {
            let mut next = BTreeMap::new();
            for (machine, ways) in level.into_values() {
                if machine.holding == 0 {
                    let truth = machine.instances[label].variables[parameter] == 1;
                    sums[usize::from(!truth)] += ways;
                }
                for place in 0..machine.holders.len() {
                    let mut after = machine.apart();
                    match after.turn(place as u8) {
                        Ok(()) => next.entry(after.whole()).or_insert((after, 0)).1 += ways,
                        Err(_) => sums[2] += ways,
                    }
                }
            }
            level = next;
        }
        sums
    }

    /// All that the turns to come depend on: of each instance its struct, the
    /// commands it holds, its stack and its variables.
    fn whole(&self) -> Vec<u32> {
        let mut numbers = Vec::new();
        for instance in &self.instances {
            let stack = instance.stack.values();
            let held = [instance.held.first, instance.held.end].map(u32::from);
            numbers.extend([u32::from(instance.structure), stack.len() as u32]);
            numbers.extend(held.iter().chain(stack).chain(&instance.variables));
        }
        numbers
    }

    /// A machine in the same state, on which no label acted last: its next turn
    /// byte is a place among the holders.
    fn apart(&self) -> Machine<'p> {
        Machine {
            structs: self.structs,
            commands: self.commands,
            instances: self.instances.clone(),
            members: self.members.clone(),
            holders: self.holders.clone(),
            holding: self.holding,
            last: None,
            schedule: self.schedule.clone(),
        }
    }
}
