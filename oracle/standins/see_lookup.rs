
// ---- appended for the comparison: what is private, read out

impl Lookup {
    pub fn tree(&self) -> &KdTree {
        &self.kdtree
    }
}
