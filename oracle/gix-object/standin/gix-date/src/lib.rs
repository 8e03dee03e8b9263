//! Stand-in for gix-date: one name that the original mentions; no case reaches it.
pub mod parse {
    #[derive(Default)]
    pub struct TimeBuf;
}
