//! Forms, sides and counts.

/// The three storage forms. All give the same bits.
#[derive(Debug, Clone, Copy, PartialEq, Eq, Hash)]
pub enum Form {
    /// Lower rows and upper lists, one after another.
    Plain,
    /// Lower columns and upper lists, sharing index slots.
    Shared,
    /// One row at a time: nothing is kept but the solution.
    Row,
}

/// A form that keeps lists and factors.
#[derive(Debug, Clone, Copy, PartialEq, Eq)]
pub(crate) enum Kept {
    Plain,
    Shared,
}

impl Form {
    pub(crate) fn kept(self) -> Option<Kept> {
        match self {
            Form::Plain => Some(Kept::Plain),
            Form::Shared => Some(Kept::Shared),
            Form::Row => None,
        }
    }
}

impl Kept {
    pub(crate) fn form(self) -> Form {
        match self {
            Kept::Plain => Form::Plain,
            Kept::Shared => Form::Shared,
        }
    }
}

/// A side of the diagonal.
#[derive(Debug, Clone, Copy, PartialEq, Eq, Hash)]
pub enum Side {
    /// Below the diagonal: rows in the plain form, columns in the shared form.
    Lower,
    /// Above the diagonal: rows in both forms.
    Upper,
}

/// How much an elimination fills and multiplies.
#[derive(Debug, Clone, Copy, PartialEq, Eq, Hash, Default)]
pub struct Counts {
    /// Filled positions below the diagonal.
    pub lower: u64,
    /// Filled positions above the diagonal.
    pub upper: u64,
    /// Products: for each place, filled rows below it times filled columns behind it.
    pub products: u64,
}

/// The slots that the lists really use.
#[derive(Debug, Clone, Copy, PartialEq, Eq, Hash, Default)]
pub struct Slots {
    /// Index slots of the lower lists.
    pub lower_index: usize,
    /// Value slots of the lower lists.
    pub lower_values: usize,
    /// Index slots of the upper lists.
    pub upper_index: usize,
    /// Value slots of the upper lists.
    pub upper_values: usize,
}
