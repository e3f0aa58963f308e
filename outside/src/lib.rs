//! An outside implementation of the key engine's rules (document 01), for comparison.
pub mod aes;
pub mod association;
pub mod attributes;
pub mod cipher;
pub mod digest;
pub mod frame;
pub mod frames;
pub mod headend;
pub mod limits;
pub mod machines;
pub mod message;
pub mod modem;
pub mod replay;
pub mod sent;
pub mod settings;
pub mod slot;

#[cfg(test)]
mod ahead_tests;
#[cfg(test)]
mod both;
#[cfg(test)]
mod frames_tests;
#[cfg(test)]
mod identifier_tests;
#[cfg(test)]
mod keyed_tests;
#[cfg(test)]
mod story_tests;
#[cfg(test)]
mod walk_tests;
