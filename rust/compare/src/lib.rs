//! The library compared with the model and the original Rust, on calls from a
//! seed: linked into this process, and its x86-64 archive in a process of its
//! own (`rust/host`), where another processor needs an emulator for it.

#[cfg(feature = "linked")]
pub mod calls;
pub mod check;
pub mod demand;
pub mod drawn;
pub mod growing;
pub mod grown;
pub mod host;
pub mod hostile;
pub mod image;
pub mod library;
#[cfg(feature = "linked")]
pub mod linked;
pub mod planted;
pub mod rubbish;
pub mod stand_in;
pub mod tally;
pub mod wide;
