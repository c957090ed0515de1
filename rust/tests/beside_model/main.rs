//! The product beside a plain Rust model of the specification. JUSTRAVE_SEED sets the seed, which each test prints; JUSTRAVE_ROUNDS makes
//! the tests so many times as long.

mod carry;
mod chain;
mod differential;
mod installed;
mod model;
mod needs;
mod order;
mod rooms;
mod rows;
mod service_bounds;
mod support;
