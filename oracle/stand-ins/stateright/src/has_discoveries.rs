//! Stand-in: a name that lib.rs hands on.
pub enum HasDiscoveries {}
