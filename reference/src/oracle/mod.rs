//! The implementation itself, from the papers and documents 01 and 02 alone. From outside this folder it uses only `show::hex`.

pub mod aes;
pub mod amendment;
pub mod cham;
pub mod comet;
pub mod contents;
pub mod difference;
pub mod editions;
pub mod printed;
pub mod report;
pub mod reseal;
pub mod search;
pub mod session;
pub mod shift;
pub mod speck;
pub mod writer;
