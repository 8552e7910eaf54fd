//! The pictures of the documents, as SVG.
//!
//!   svg       lines, circles and text
//!   example   a walk over four points, and why it is not a DFS
//!   speed     the time of a judge call against n

pub mod example;
pub mod speed;
mod svg;
