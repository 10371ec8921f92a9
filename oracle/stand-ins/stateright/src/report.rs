//! Stand-in: lib.rs declares this module, and a replay needs nothing of it.
