//! The programs `planlist`, `plandraw` and `plancount`: what they print against
//! what the sheet and the requests say. The variables `NENTURXO_PLANLIST`,
//! `NENTURXO_PLANDRAW` and `NENTURXO_PLANCOUNT` name the programs; without them
//! these tests fail.

mod both;
mod plancount;
mod plandraw;
mod planlist;
