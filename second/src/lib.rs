//! An independent second program for the coordinator that document 01 describes.
//!
//! The modules follow the document: `table` holds the rules on a global table, `parts` projection,
//! merge and layout, `opening` the order of the rules, `blocks` the written tables of all roles,
//! `session` the state and its calls, `steps` the step rules of the global protocol. `lines` is the
//! line protocol of `bench`. `random`, `plans`, `hand_made`, `cases` and `demand3` make and judge random cases.

pub mod blocks;
pub mod cases;
pub mod demand3;
pub mod hand_made;
pub mod limits;
pub mod lines;
pub mod marked;
pub mod numbers;
pub mod opening;
pub mod parts;
pub mod plans;
pub mod random;
pub mod session;
pub mod steps;
pub mod table;

pub use opening::open;
pub use session::{fresh, Awaited, Received, Sent, Session};
pub use table::Verdict;
