//! The schedule of a text: names that are not there, and items that are too many or too deep.

use super::cursor::Cursor;
use super::declared::Declared;
use super::{Findings, LIMIT, NAME, NESTING, STEP, Sort};

const MOST_ITEMS: usize = 64;
const MOST_ROW: usize = 32;
const MOST_FIXES: usize = 8;

/// Walks over items; a row of items is open for the schedule and for each Fix round them.
pub fn walk(cursor: &mut Cursor, declared: &Declared, found: &mut Findings) -> Option<()> {
    let mut rows = vec![0];
    let mut items = 0;
    while !cursor.peek().is_empty() {
        let at = cursor.place();
        match cursor.take()?.0 {
            "<" => continue,
            ")" => {
                rows.pop();
                continue;
            }
            "Fix" => {
                counted(&mut rows, &mut items, at, found)?;
                cursor.pass("(")?;
                if rows.len() > MOST_FIXES {
                    found.add(NESTING, at, format!("Fixes nest at most {MOST_FIXES} deep"));
                }
                rows.push(0);
            }
            name => {
                counted(&mut rows, &mut items, at, found)?;
                item(cursor, declared, (name, at), found)?;
            }
        }
    }
    Some(())
}

fn counted(rows: &mut [usize], items: &mut usize, at: usize, found: &mut Findings) -> Option<()> {
    let row = rows.last_mut()?;
    *row += 1;
    *items += 1;
    if *row == MOST_ROW + 1 {
        found.add_17(Sort::Count, at, format!("a row of the schedule has at most {MOST_ROW} items"));
    }
    if *items == MOST_ITEMS + 1 {
        found.add(LIMIT, at, format!("a schedule has at most {MOST_ITEMS} items in all, each Fix being one"));
    }
    Some(())
}

/// `Name` or `Name . Name`.
fn item(cursor: &mut Cursor, declared: &Declared, (name, at): (&str, usize), found: &mut Findings) -> Option<()> {
    if !cursor.met(".") {
        if !declared.has_step(name) {
            found.add(NAME, at, format!("{name} is not declared: no struct has a step of that name"));
        }
        return Some(());
    }
    let (step, step_at) = cursor.take()?;
    let structure = declared.structure(name);
    if structure.is_none() {
        found.add(NAME, at, format!("{name} is not declared: no struct has that name"));
    }
    if !declared.has_step(step) {
        found.add(NAME, step_at, format!("{step} is not declared: no struct has a step of that name"));
    } else if structure.is_some_and(|structure| !structure.steps.contains(&step)) {
        found.add(STEP, step_at, format!("{name} has no step {step}"));
    }
    Some(())
}
