//! Stand-in: the one name that the original mentions.
pub(crate) mod ref_iter {
    #[derive(Clone, Copy)]
    pub struct State;
}
