//! The first difference between what was found and what was expected, bit by bit.
use crate::model::*;
use std::fmt;

/// What differs, as it is printed.
#[derive(Clone, Debug, PartialEq)]
pub struct Difference {
    pub what: String,
    pub found: String,
    pub expected: String,
}

impl fmt::Display for Difference {
    fn fmt(&self, f: &mut fmt::Formatter<'_>) -> fmt::Result {
        write!(f, "{}: found {}, expected {}", self.what, self.found, self.expected)
    }
}

/// Nothing where all is as expected, or the first difference.
pub type Compared = Result<(), Difference>;

/// Reports a difference between what was found and what was expected.
pub fn differ<T>(what: impl Into<String>, found: impl fmt::Debug, expected: impl fmt::Debug) -> Result<T, Difference> {
    Err(Difference { what: what.into(), found: format!("{found:?}"), expected: format!("{expected:?}") })
}

/// Compares two values.
pub fn same<T: PartialEq + fmt::Debug>(what: &str, found: &T, expected: &T) -> Compared {
    if found == expected {
        return Ok(());
    }
    differ(what, found, expected)
}

/// Compares a count with the least that will do.
pub fn at_least(what: &str, found: u64, least: u64) -> Compared {
    if found >= least {
        return Ok(());
    }
    differ(what, found, format!("at least {least}"))
}

/// Compares two lists slot by slot.
pub fn numbers<T: PartialEq + fmt::Debug>(name: &str, found: &[T], expected: &[T]) -> Compared {
    same(&format!("length of {name}"), &found.len(), &expected.len())?;
    for (slot, (a, b)) in found.iter().zip(expected).enumerate() {
        if a != b {
            return differ(format!("{name}[{slot}]"), a, b);
        }
    }
    Ok(())
}

/// Compares two lists of numbers bit by bit, the payload of a NaN too.
pub fn floats(name: &str, found: &[f64], expected: &[f64]) -> Compared {
    float_slots(name, found, expected, |a, b| a.to_bits() == b.to_bits())
}

/// Compares two lists of numbers bit by bit, but one NaN is as good as another.
pub fn floats_one_nan(name: &str, found: &[f64], expected: &[f64]) -> Compared {
    float_slots(name, found, expected, |a, b| a.to_bits() == b.to_bits() || (a.is_nan() && b.is_nan()))
}

fn float_slots(name: &str, found: &[f64], expected: &[f64], equal: impl Fn(f64, f64) -> bool) -> Compared {
    same(&format!("length of {name}"), &found.len(), &expected.len())?;
    for (slot, (&a, &b)) in found.iter().zip(expected).enumerate() {
        if !equal(a, b) {
            let show = |v: f64| format!("{:016X} ({v:e})", v.to_bits());
            return differ(format!("{name}[{slot}]"), show(a), show(b));
        }
    }
    Ok(())
}

fn stores(name: &str, found: &Store, expected: &Store) -> Compared {
    numbers(&format!("{name} list starts"), &found.starts, &expected.starts)?;
    numbers(&format!("{name} run starts"), &found.runs, &expected.runs)?;
    numbers(&format!("{name} index store"), &found.index, &expected.index)?;
    floats(&format!("{name} value store"), &found.values, &expected.values)
}

/// Compares every buffer that a call may write.
pub fn buffers(found: &Buffers, expected: &Buffers) -> Compared {
    stores("lower", &found.lower, &expected.lower)?;
    stores("upper", &found.upper, &expected.upper)?;
    floats("d", &found.d, &expected.d)?;
    floats("x", &found.x, &expected.x)?;
    floats("scratch f64", &found.scratch_f64, &expected.scratch_f64)?;
    numbers("scratch u32", &found.scratch_u32, &expected.scratch_u32)
}

/// Compares every buffer of factors that are kept.
pub fn kept(found: &Keeping, expected: &Keeping) -> Compared {
    numbers("r", &found.r, &expected.r)?;
    numbers("c", &found.c, &expected.c)?;
    stores("lower", &found.lower, &expected.lower)?;
    stores("upper", &found.upper, &expected.upper)?;
    floats("d", &found.d, &expected.d)
}

/// Compares the parts of a matrix as a file holds them; with `one_nan`, one NaN is as good as another.
pub fn matrices(found: &Input, expected: &Input, one_nan: bool) -> Compared {
    let compare = if one_nan { floats_one_nan } else { floats };
    numbers("starts", &found.starts, &expected.starts)?;
    numbers("columns", &found.columns, &expected.columns)?;
    compare("values", &found.values, &expected.values)?;
    numbers("r", &found.r, &expected.r)?;
    numbers("c", &found.c, &expected.c)?;
    compare("b", &found.b, &expected.b)
}
