//! Row order and column order.
use crate::Error;

/// The two orders of an elimination: place k takes row `rows()[k]` and column `columns()[k]`.
///
/// ```
/// let orders = lilacpliers::Orders::new(&[1, 0], &[0, 1])?;
/// assert_eq!(orders.rows(), [1, 0]);
/// assert_eq!(lilacpliers::Orders::natural(3).columns(), [0, 1, 2]);
/// # Ok::<(), lilacpliers::Error>(())
/// ```
#[derive(Debug, Clone, PartialEq, Eq)]
pub struct Orders {
    rows: Vec<u16>,
    columns: Vec<u16>,
}

impl Orders {
    /// The orders 0, 1, .. for n rows. Beyond 65,536 rows, which no call takes, they stop there.
    pub fn natural(n: usize) -> Orders {
        let order: Vec<u16> = (0..=u16::MAX).take(n).collect();
        Orders { rows: order.clone(), columns: order }
    }

    /// Orders of one's own. Only the range of 16 bits is checked here; whether they are orders, the library asks.
    pub fn new(rows: &[usize], columns: &[usize]) -> Result<Orders, Error> {
        Ok(Orders { rows: narrow("row", rows)?, columns: narrow("column", columns)? })
    }

    pub(crate) fn from_parts(rows: Vec<u16>, columns: Vec<u16>) -> Orders {
        Orders { rows, columns }
    }

    /// The row of each place.
    pub fn rows(&self) -> &[u16] {
        &self.rows
    }

    /// The column of each place.
    pub fn columns(&self) -> &[u16] {
        &self.columns
    }
}

fn narrow(what: &str, order: &[usize]) -> Result<Vec<u16>, Error> {
    let slot = |(place, &number): (usize, &usize)| {
        u16::try_from(number)
            .map_err(|_| Error::Shape(format!("the {what} order has {number} at place {place}, which is out of range")))
    };
    order.iter().enumerate().map(slot).collect()
}
