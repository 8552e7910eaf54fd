//! Recomputes what the verified library answers, from 01 and 02 alone, times it, and draws the pictures of the
//! documents.
//!
//!   definition   the sentences of 01 and 02 as loops
//!   bitset       a fast implementation without proof, for the timing
//!   entry        the library's four C functions, which all take the barred points, called with guarded lists
//!   graphs       plans to try
//!   orderings    walks and preference lists to try
//!   barred_sets  sets of barred points to try
//!   carry_over   which kinds a walk passes because it passes another
//!   calls        the inputs of one call, sound or damaged
//!   sheets       sheets to try, sound or damaged
//!   edge_files   DIMACS edge files to try, sound or damaged
//!   random       numbers from a fixed seed
//!   tables       the tables of times
//!   pictures     the pictures, from an example and from the tables

pub mod barred_sets;
pub mod bitset;
pub mod calls;
pub mod carry_over;
pub mod definition;
pub mod edge_files;
pub mod graphs;
pub mod orderings;
pub mod pictures;
pub mod random;
pub mod sheets;
pub mod tables;

// The unit tests are linked without the library.
#[cfg(not(test))]
pub mod entry;
