//! Stand-in for reading addresses from text, which nothing here does.
