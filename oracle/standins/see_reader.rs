
// ---- appended for the comparison: what is private, read out

impl Sofar {
    pub fn neighborhood(&self) -> &Neighborhood {
        &self.neighborhood
    }

    pub fn filter_number(&self, number: usize, filter: &mut Filter) {
        self.fill_filter(filter, &get_filter_nointerp(&self.hrtf, number).unwrap());
    }
}
