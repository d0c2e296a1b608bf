//! Stands for a device that the hart has no use for.
