
// ---- appended for the comparison: what is private, read out

impl KdTree {
    /// The children of each of `m` nodes by number, 65535 for none.
    pub fn links(&self, m: usize) -> (Vec<u16>, Vec<u16>) {
        let number = |n: &Option<Box<KdNode>>| n.as_ref().map_or(65535, |n| n.data as u16);
        let (mut left, mut right) = (vec![0; m], vec![0; m]);
        let mut open: Vec<&KdNode> = self.root.as_deref().into_iter().collect();
        while let Some(n) = open.pop() {
            left[n.data] = number(&n.left);
            right[n.data] = number(&n.right);
            open.extend([&n.left, &n.right].into_iter().filter_map(|c| c.as_deref()));
        }
        (left, right)
    }

    pub fn corners(&self) -> [f32; 6] {
        let b = self.bounds.as_ref().unwrap();
        [b.min[0], b.min[1], b.min[2], b.max[0], b.max[1], b.max[2]]
    }
}
