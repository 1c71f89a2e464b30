//! Holds nothing: its build compares the published files with their checksums, and the stand-ins depend on it.
