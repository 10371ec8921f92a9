//! Stand-in: a name that util.rs hands on.
pub enum DenseNatMap {}
