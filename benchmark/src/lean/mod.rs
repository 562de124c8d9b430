// The lean baseline: the library's calls in safe Rust without allocation, as one writes them for speed.
//
// It works on the library's own structs. Counters are added to by `wrapping_add`: none can overflow, and
// the profile would have each addition checked.
#![forbid(unsafe_code)]

mod addresses;
mod assess;
mod check;
mod cloning;
mod handler;
mod notify;
mod opening;
mod policy;
mod reader;
mod redirect;
mod response;
mod shares;
mod writer;

pub use assess::{assess, Assessment};
pub use check::check;
pub use cloning::{clone_ike, CloneReply};
pub use handler::{handle, Reply};
pub use opening::open;
pub use policy::acceptable;
pub use reader::{read, Reading};
pub use redirect::{decide, Decision};
pub use writer::{write, Written};
