//! Stands for a platform that isn't selected.

pub struct VisionFive2Platform;
