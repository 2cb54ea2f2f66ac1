// Appended to the copy of smooth.rs by build.rs: its private sets, seen and given from outside.
impl VectorField {
    pub fn from_sets(shape: FieldShape, backward: Vec<BlockVector>, forward: Vec<BlockVector>) -> Self {
        Self { shape, forward, backward }
    }

    pub fn sets(&self) -> (&[BlockVector], &[BlockVector]) {
        (&self.backward, &self.forward)
    }
}

/// The entries of a set's bytes, by the Rust's own reader.
pub fn entries(bytes: &[u8]) -> Vec<BlockVector> {
    let mut set = vec![BlockVector::default(); bytes.len() / 8];
    decode_set(bytes, 0, &mut set);
    set
}
