// Appended to the copy of src/rand.rs: the generator's state, out.

impl Rand {
    pub(crate) fn state(&self) -> u64 {
        self.state
    }
}
