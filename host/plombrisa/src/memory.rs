//! The memory that a call asks for by itself. The library judges first, with nothing lent; then all the memory is reserved; then it is
//! filled. So a refusal costs no memory, and where memory is short no page of it has been touched.
use crate::{Error, Refusal};

/// What the library said when it was lent nothing: an error where it refused what it was given, and not for `nothing_lent`, the number
/// for an output, a list or a room of no length.
///
/// This is the refusal of the same call with enough lent, since what is lent is judged after all else, and asking changes nothing: a
/// refused call leaves every lent cell as it was, and here there is none.
pub fn judged(answer: Result<(), Refusal>, nothing_lent: Refusal) -> Result<(), Refusal> {
    match answer {
        Err(refusal) if refusal != nothing_lent => Err(refusal),
        _ => Ok(()),
    }
}

/// The bytes of so many cells; what no u64 holds is the greatest there is.
pub fn bytes_of<T>(cells: usize) -> u64 {
    (cells as u64).saturating_mul(size_of::<T>() as u64)
}

/// Memory for so many cells that was reserved and not yet touched.
pub struct Reserved<T> {
    list: Vec<T>,
    cells: usize,
}

/// Reserves memory for so many cells, for a call that needs so many bytes in all: where it cannot be had the error says these.
pub fn reserve<T>(cells: usize, bytes: u64) -> Result<Reserved<T>, Error> {
    let mut list = Vec::new();
    match list.try_reserve_exact(cells) {
        Ok(()) => Ok(Reserved { list, cells }),
        Err(_) => Err(Error::Memory { bytes }),
    }
}

impl<T: Clone + Default> Reserved<T> {
    /// The cells, each with its type's default: zero for a number. Nothing is asked of the allocator.
    pub fn filled(mut self) -> Vec<T> {
        self.list.resize(self.cells, T::default());
        self.list
    }
}

impl<T> Reserved<T> {
    /// The cells as they come, of which there are so many. Nothing is asked of the allocator.
    pub fn collected(mut self, cells: impl Iterator<Item = T>) -> Vec<T> {
        self.list.extend(cells.take(self.cells));
        self.list
    }
}

/// So many cells, each with its type's default, for a call that needs no other memory.
pub fn zeros<T: Clone + Default>(cells: usize) -> Result<Vec<T>, Error> {
    Ok(reserve(cells, bytes_of::<T>(cells))?.filled())
}
