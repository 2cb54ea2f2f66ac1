//! Memory that may be missing.

use crate::error::Error;

/// An empty vector with room for so many, or no memory for it.
pub(crate) fn room<T>(count: usize) -> Result<Vec<T>, Error> {
    let mut made = Vec::new();
    made.try_reserve_exact(count).map_err(|_| Error::Memory)?;
    Ok(made)
}

/// So many zeros, or no memory for them.
pub(crate) fn zeros<T: Copy + Default>(count: usize) -> Result<Vec<T>, Error> {
    let mut made = room(count)?;
    made.resize(count, T::default());
    Ok(made)
}
