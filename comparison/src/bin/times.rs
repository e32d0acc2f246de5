//! The times of the proved library's calls on the surveys of 1,024 nodes: `times [MILLISECONDS]`, the time given to each measurement. A
//! line has the survey, its links and high nodes, and the nanoseconds that each of `timing::CALLS` takes. comparison/before runs it with
//! two archives.

use comparison::timing::{self, Lent};
use comparison::{graphs, times};

fn main() {
    let budget = timing::budget();
    for sample in graphs::largest_surveys() {
        let mut x = Lent::new(&sample);
        let times = times!(&mut x, budget, comparison::proved);
        print!("{} {} {}", x.survey, x.neighbours.len() / 2, x.high);
        times.iter().for_each(|time| print!(" {:.1}", time * 1e9));
        println!();
    }
}
