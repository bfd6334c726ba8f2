//! Names as ls lists them.

/// Bytes of a listed name.
const NAME: usize = 14;

/// The first `count` names of a listing, without the zeros that pad them.
///
/// ```
/// use filestore::{names, Tables};
///
/// let mut tables = Tables::new(4, 4, 2);
/// let mut store = tables.lend();
/// store.prepare()?;
/// store.mkdir("/docs")?;
/// store.create("/x")?;
/// let mut listing = [0; 2 * 14];
/// let count = store.ls("/", &mut listing)?;
/// assert!(names(&listing, count).eq([&b"docs"[..], b"x"]));
/// # Ok::<(), filestore::Report>(())
/// ```
pub fn names(listing: &[u8], count: usize) -> impl Iterator<Item = &[u8]> {
    listing.chunks_exact(NAME).take(count).map(|record| {
        let end = record.iter().position(|&b| b == 0).unwrap_or(NAME);
        &record[..end]
    })
}
