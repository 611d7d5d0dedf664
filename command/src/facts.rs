//! Counts and slots of a structure, as lines of a table.
use lilacpliers::{Counts, Slots};

/// A line of the table; a heading has no value.
pub struct Fact {
    pub label: String,
    pub value: String,
}

/// What a matrix has stored: its entries, and the positions that have one or more of them.
#[derive(Clone, Copy)]
pub struct Stored {
    pub entries: usize,
    pub positions: usize,
}

pub fn facts(n: usize, stored: Stored, counts: Counts, plain: Slots, shared: Slots) -> Vec<Fact> {
    let filled = counts.lower + counts.upper + n as u64;
    let mut table = vec![fact("rows", n), fact("stored entries", stored.entries)];
    if stored.positions < stored.entries {
        table.push(fact("stored positions", stored.positions));
    }
    table.push(fact("fill", filled.saturating_sub(stored.positions as u64)));
    table.push(fact("filled below the diagonal", counts.lower));
    table.push(fact("filled above the diagonal", counts.upper));
    table.push(fact("products", counts.products));
    table.push(fact("plain form, slots", ""));
    slots(&mut table, plain);
    table.push(fact("shared form, slots", ""));
    slots(&mut table, shared);
    // The row form keeps no lower list, and places the upper ones as the shared form does.
    table.push(fact("row form, slots", ""));
    upper_slots(&mut table, shared);
    table.push(fact("sharing saves", ""));
    table.push(fact("lower index", saved(plain.lower_index, shared.lower_index)));
    table.push(fact("upper index", saved(plain.upper_index, shared.upper_index)));
    let both = |slots: Slots| slots.lower_index + slots.upper_index;
    table.push(fact("index in all", saved(both(plain), both(shared))));
    table
}

fn fact(label: &str, value: impl ToString) -> Fact {
    Fact { label: label.to_string(), value: value.to_string() }
}

fn slots(table: &mut Vec<Fact>, slots: Slots) {
    table.push(fact("lower index", slots.lower_index));
    table.push(fact("lower values", slots.lower_values));
    upper_slots(table, slots);
}

fn upper_slots(table: &mut Vec<Fact>, slots: Slots) {
    table.push(fact("upper index", slots.upper_index));
    table.push(fact("upper values", slots.upper_values));
}

/// What is saved, in per cent of what the plain form needs.
fn saved(plain: usize, shared: usize) -> String {
    if plain == 0 {
        return "0.0 %".to_string();
    }
    format!("{:.1} %", 100.0 * (plain as f64 - shared as f64) / plain as f64)
}

/// The table as text: values right-aligned, lines under a heading indented.
pub fn table_text(table: &[Fact]) -> String {
    let mut out = String::new();
    let mut indent = "";
    for Fact { label, value } in table {
        if value.is_empty() {
            indent = "  ";
            out.push_str(&format!("{label}\n"));
        } else {
            out.push_str(&format!("{:<28}{value:>12}\n", format!("{indent}{label}")));
        }
    }
    out
}

#[cfg(test)]
mod tests {
    use super::*;

    #[test]
    fn fill_is_what_no_position_stores() {
        let (counts, slots) = (Counts { lower: 3, upper: 3, products: 5 }, Slots::default());
        let lines = |entries, positions| {
            let table = facts(3, Stored { entries, positions }, counts, slots, slots);
            table.into_iter().take(4).map(|Fact { label, value }| format!("{label} {value}")).collect::<Vec<_>>()
        };
        assert_eq!(lines(7, 7), ["rows 3", "stored entries 7", "fill 2", "filled below the diagonal 3"]);
        assert_eq!(lines(40, 7), ["rows 3", "stored entries 40", "stored positions 7", "fill 2"]);
    }

    #[test]
    fn saving_is_in_per_cent() {
        assert_eq!([saved(0, 0), saved(8, 8), saved(8, 2)], ["0.0 %", "0.0 %", "75.0 %"]);
    }
}
