//! Sets of jobs as words, bit k for job k.

/// The jobs of a set, least first.
pub struct Members(pub u64);

impl Iterator for Members {
    type Item = usize;

    #[inline(always)]
    fn next(&mut self) -> Option<usize> {
        if self.0 == 0 {
            return None;
        }
        let job = self.0.trailing_zeros() as usize;
        self.0 &= self.0 - 1;
        Some(job)
    }
}

#[inline(always)]
pub fn bit(job: usize) -> u64 {
    1 << job
}
