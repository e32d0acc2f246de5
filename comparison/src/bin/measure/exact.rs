//! Exact distances between all pairs by igraph, where it is installed.

#[cfg(igraph)]
mod raw {
    pub enum Exact {}
    extern "C" {
        pub fn exact_new(n: usize, ends: *const u16, m: usize) -> *mut Exact;
        pub fn exact_run(exact: *mut Exact) -> i32;
        pub fn exact_distance(exact: *const Exact, a: usize, b: usize) -> f64;
        pub fn exact_free(exact: *mut Exact);
    }
}

#[cfg(igraph)]
pub struct Exact(*mut raw::Exact);

#[cfg(igraph)]
impl Exact {
    pub fn new(n: usize, links: &[(usize, usize)]) -> Option<Self> {
        let ends: Vec<u16> = links
            .iter()
            .flat_map(|&(a, b)| [a as u16, b as u16])
            .collect();
        Some(Exact(unsafe {
            raw::exact_new(n, ends.as_ptr(), links.len())
        }))
    }

    /// Fills the matrix of distances, which is kept.
    pub fn run(&mut self) {
        unsafe { raw::exact_run(self.0) };
    }

    pub fn distance(&self, a: usize, b: usize) -> Option<u16> {
        let distance = unsafe { raw::exact_distance(self.0, a, b) };
        (distance >= 0.0).then_some(distance as u16)
    }
}

#[cfg(igraph)]
impl Drop for Exact {
    fn drop(&mut self) {
        unsafe { raw::exact_free(self.0) }
    }
}

#[cfg(not(igraph))]
pub struct Exact;

#[cfg(not(igraph))]
impl Exact {
    pub fn new(_: usize, _: &[(usize, usize)]) -> Option<Self> {
        None
    }

    pub fn run(&mut self) {}

    pub fn distance(&self, _: usize, _: usize) -> Option<u16> {
        None
    }
}
