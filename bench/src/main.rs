//! Times the proved calls beside a plain Rust implementation of the same calls, on the same inputs and in one run. For each
//! measurement both must first give the same answer.

mod automata;
mod measures;
mod ours;
mod pair_measures;
mod pair_ours;
mod pair_rounds;
mod patterns;
mod plain;
mod report;
mod rounds;
mod timing;

fn main() {
    measures::builds();
    measures::checks();
    measures::feeds();
    measures::turns();
    measures::searches();
    measures::growth();
    pair_measures::builds();
    pair_measures::checks();
    pair_measures::feeds();
    patterns::compiles();
}
