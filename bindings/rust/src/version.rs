/// The version of the interface that this crate calls.
pub(crate) const VERSION: u32 = 1;
