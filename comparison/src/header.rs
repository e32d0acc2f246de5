//! What include/puxerdau.h says, by the functions of header.c.

use reference::{Route, Verdict, NONE};

mod raw {
    extern "C" {
        pub fn header_constant(place: usize) -> u32;
        pub fn header_refusal(answer: u64) -> u64;
        pub fn header_count(answer: u64) -> u64;
        pub fn header_nodes(answer: u64) -> u64;
        pub fn header_links(answer: u64) -> u64;
        pub fn header_report(answer: u64) -> u64;
        pub fn header_route(answer: u64) -> u64;
        pub fn header_hub(answer: u64) -> u64;
        pub fn header_verdict(answer: u64) -> u64;
        pub fn header_searches(answer: u64) -> u64;
    }
}

/// A part of an answer, with the header's function for it.
#[derive(Clone, Copy)]
pub struct Part {
    pub name: &'static str,
    function: unsafe extern "C" fn(u64) -> u64,
}

impl Part {
    const fn new(name: &'static str, function: unsafe extern "C" fn(u64) -> u64) -> Self {
        Part { name, function }
    }

    pub fn of(self, answer: u64) -> u64 {
        unsafe { (self.function)(answer) }
    }
}

pub const REFUSAL: Part = Part::new("refusal", raw::header_refusal);
pub const COUNT: Part = Part::new("count", raw::header_count);
pub const NODES: Part = Part::new("nodes", raw::header_nodes);
pub const LINKS: Part = Part::new("links", raw::header_links);
pub const REPORT: Part = Part::new("report", raw::header_report);
pub const ROUTE: Part = Part::new("route", raw::header_route);
pub const HUB: Part = Part::new("hub", raw::header_hub);
pub const VERDICT: Part = Part::new("verdict", raw::header_verdict);
pub const SEARCHES: Part = Part::new("searches", raw::header_searches);

/// Whether the header's refusals are 1 to 14, and its routes, verdicts and none those of the second implementation.
pub fn check_constants() -> Result<(), String> {
    let routes = [
        Route::Itself,
        Route::Low,
        Route::Through(0),
        Route::NoRoute,
        Route::Link,
    ];
    let verdicts = [Verdict::Parted, Verdict::Long, Verdict::Short];
    let numbers = (1..=14)
        .chain(routes.map(Route::number))
        .chain(verdicts.map(Verdict::number))
        .chain([NONE]);
    for (place, number) in numbers.enumerate() {
        let constant = unsafe { raw::header_constant(place) };
        if constant != u32::from(number) {
            return Err(format!(
                "constant {place} of header.c is {constant}, not {number}"
            ));
        }
    }
    Ok(())
}
