//! The settings of a trial.

/// What a run is made with, and how far it goes.
#[derive(Clone, Debug)]
pub(crate) struct Settings {
    pub(crate) desks: usize,
    pub(crate) slots: u32,
    pub(crate) lane: u32,
    /// How many moves a run has at most.
    pub(crate) steps: usize,
    /// How many runs are made at most.
    pub(crate) limit: u64,
    pub(crate) threads: usize,
    /// How often time goes on though something is to be done.
    pub(crate) times: u32,
    pub(crate) kills: u32,
    /// Whether a move of a desk is a whole round of its loop.
    pub(crate) is_coarse: bool,
    pub(crate) reduced: bool,
    /// Whether behaviours share something of their own, so that nothing is left out.
    pub(crate) shares: bool,
    pub(crate) no_panics: bool,
    pub(crate) all_end: bool,
    pub(crate) all_rest: bool,
    pub(crate) none_kept: bool,
    pub(crate) none_lost: bool,
}

impl Default for Settings {
    fn default() -> Settings {
        Settings {
            desks: 2,
            slots: 32,
            lane: 64,
            steps: 10_000,
            limit: 1_000_000,
            threads: 1,
            times: 0,
            kills: 0,
            is_coarse: false,
            reduced: false,
            shares: false,
            no_panics: false,
            all_end: false,
            all_rest: true,
            none_kept: false,
            none_lost: false,
        }
    }
}
