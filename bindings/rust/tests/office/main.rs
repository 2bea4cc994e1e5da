//! The program `snoekeldraf` on real files, as an office, a supplier, an inspector and a script would use it.
#![cfg(feature = "office")]

mod desk;
mod interrupted;
mod reading;
mod refusals;
mod tables;
mod terminal;
mod writing;
