//! The proved library as an implementation.

use cases::Implementation;

/// The library.
pub const PROVED: Implementation = Implementation {
    name: "the proved library",
    judge: library::judge,
    resolve: library::resolve,
    draw: library::draw,
    rounds: library::rounds,
};
