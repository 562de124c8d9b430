// The verified library: its C interface, and its answers in the form in which they are compared. And the
// verified program that replays a trace.
pub mod assess;
pub mod checks;
pub mod clones;
pub mod cookie;
pub mod entries;
mod pipe;
pub mod reader;
pub mod redirects;
pub mod replay;
pub mod requests;
pub mod tables;
pub mod writer;

const _: &str = env!(
    "UNMAVRETH_LIBRARY_DIRECTORY",
    "the directory of libunmavreth.a must be set: build this program by running ./compare"
);
