//! A separately written reference for the rules of document 01: the model of
//! the facade, the script reader and writer, the rig's run, a readable text
//! form of scripts, a generator of scripts and a tally of what scripts reach,
//! the flat form of a facade and a generator of facades.

pub mod apply;
pub mod configuration;
pub mod demand;
pub mod facade;
pub mod facades;
pub mod flat;
pub mod generator;
pub mod handle;
pub mod held_ack;
pub mod message;
pub mod random;
pub mod range;
pub mod refusal;
pub mod rig;
pub mod script;
pub mod step;
pub mod tally;
pub mod text;
pub mod writer;

pub use configuration::Configuration;
pub use facade::Facade;
pub use refusal::{Outcome, Refusal};
pub use step::{RawStep, Step};
