//! The proved library, called through its C boundary, beside the engine of `second/`.
//!
//! `case` is one call with all that is lent to it, and what it leaves; `ours` makes it through the boundary, over
//! the memory of `lending` and `pages`, and `reference` asks `second/`. `inputs` and `fuzz` make random cases and
//! compare; `fault` says which call touched memory that was not lent; `tally` counts. `shapes`, `bout`, `clock` and
//! `measure` compare times.

// The file stands in `examples/`, so that the users' declarations are the ones that are tested here.
#[path = "../../examples/gaugetwinkle.rs"]
#[rustfmt::skip]
pub mod gaugetwinkle;

#[rustfmt::skip] // laid out as the declarations in `examples/`
pub mod bare;
pub mod bout;
pub mod case;
pub mod clock;
pub mod fault;
pub mod fuzz;
pub mod inputs;
pub mod lending;
pub mod measure;
pub mod ours;
pub mod pages;
pub mod reference;
pub mod shapes;
pub mod tally;
