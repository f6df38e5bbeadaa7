// Times the proved code beside the independent program, or loops written by hand, on the same work and bytes, in one run.
// Each module is one part of the proved code and prints its own table.

mod engine;
mod monitor;
mod plan;
mod queue;
mod race;
mod replay;

fn main() {
    plan::bench();
    engine::bench();
    queue::bench();
    monitor::bench();
    replay::bench(std::path::Path::new("target"));
}
