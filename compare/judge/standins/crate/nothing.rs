//! Stands in for a file that was not given and that the given files do not use.
