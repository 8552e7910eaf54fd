//! Recomputes the library's answers from 01 and 02, and stops at the first that differs.
//!
//!   a   the examples of 01, some on one-way plans, and some with points out of service
//!   b   the orderings that document 001 names
//!   c   all small plans, two-way and one-way, with nothing barred
//!   d   random plans of either mark, walks and damaged inputs from a fixed seed
//!   e   the open walks that a program of the library plays
//!   f   the sheets that a program of the library judges
//!   g   which passes carry over from one kind to another
//!   h   the walks that a program of the library charges
//!   i   the same calls under either mark of a plan
//!   j   the ways back that a program of the library finds
//!   k   the comparisons that a program of the library makes
//!   l   points out of service, and several faults at once
//!   m   the open walks with points out of service that a program of the library plays
//!   n   the plans that a program of the library finds to have a chordless ring or none
//!   o   the plans that a program of the library converts to neighbour lists and back, and the walks that it judges there
//!   p   the walks that a program of the library judges in words
//!   q   the walks on plans of up to 512 points that a program of the library judges and carries on
//!   r   the DIMACS edge files that a program of the library imports and exports
//!   s   the DIMACS edge files that a program of the library turns into sheets

mod barred;
mod barred_walks;
mod carry_over;
mod charged_walks;
mod chordal_plans;
mod compared_points;
mod comparison;
mod document;
mod edge_files;
mod edge_sheets;
mod either_mark;
mod examples;
mod faults;
mod neighbour_lists;
mod open_walks;
mod printed;
mod program;
mod random_calls;
mod sentences;
mod sheets;
mod small_plans;
mod ways_back;
mod wide_plans;

fn main() {
    let calls = examples::compare()
        + document::compare()
        + small_plans::compare()
        + random_calls::compare()
        + open_walks::compare()
        + sheets::compare()
        + carry_over::compare()
        + charged_walks::compare()
        + either_mark::compare()
        + ways_back::compare()
        + compared_points::compare()
        + barred::compare()
        + faults::compare()
        + barred_walks::compare()
        + chordal_plans::compare()
        + neighbour_lists::compare()
        + sentences::compare()
        + wide_plans::compare()
        + edge_files::compare()
        + edge_sheets::compare();
    println!("all {calls} calls agree");
}
