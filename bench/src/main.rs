//! Times the readers alone.

fn main() {
    timefd_bench::run(&[]);
}
