//! Stands for a platform that isn't selected.

pub struct PremierP550Platform;
