//! Stands for the world switch, of which nothing is called.
