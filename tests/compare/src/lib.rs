//! Compares the programs `rig` and `rewrite` with the separately written
//! reference, measures them side by side, and selects stored scripts.

pub mod case;
pub mod coverage;
pub mod difference;
pub mod goals;
pub mod inputs;
pub mod load;
pub mod options;
pub mod process;
pub mod rewritten;
pub mod selection;
pub mod table;
pub mod timing;
