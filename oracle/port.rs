//! The port's archive as include/sofa.h has it.

#[repr(C)]
#[derive(Clone, Copy, Debug)]
pub struct Refusal {
    pub reason: u32,
    pub place: usize,
}

#[repr(C)]
#[derive(Clone, Copy, Debug)]
pub struct Value {
    pub reason: u32,
    pub place: usize,
    pub value: f32,
}

#[repr(C)]
#[derive(Clone, Copy, Debug)]
pub struct Sizes {
    pub m: usize,
    pub c: usize,
    pub r: usize,
    pub n: usize,
}

/// The box's six corners, least first, then the six bounds.
#[repr(C)]
#[derive(Clone, Copy, Debug)]
pub struct Lookup {
    pub corners: [f32; 6],
    pub bounds: [f32; 6],
}

#[repr(C)]
#[derive(Clone, Copy, Debug)]
pub struct Loaded {
    pub reason: u32,
    pub place: usize,
    pub lookup: Lookup,
}

#[repr(C)]
#[derive(Clone, Copy, Debug)]
pub struct Found {
    pub reason: u32,
    pub place: usize,
    pub number: u16,
}

#[repr(C)]
#[derive(Clone, Copy, Debug)]
pub struct Filtered {
    pub reason: u32,
    pub place: usize,
    pub blended: u32,
    pub points: usize,
    pub ldelay: f32,
    pub rdelay: f32,
}

#[repr(C)]
#[derive(Clone, Copy, Debug)]
pub struct Part {
    pub reason: u32,
    pub place: usize,
    pub start: usize,
    pub count: usize,
}

#[repr(C)]
#[derive(Clone, Copy, Debug)]
pub struct Around {
    pub reason: u32,
    pub place: usize,
    pub entries: [u16; 6],
}

unsafe extern "C" {
    fn sofa_to_spherical(values: *mut f32, count: usize) -> Refusal;
    fn sofa_to_cartesian(values: *mut f32, count: usize) -> Refusal;
    fn sofa_load(
        kind: u32, sizes: Sizes, positions: *const f32, positions_count: usize, responses: *const f32, responses_count: usize, angle_step: f32,
        radius_step: f32, rate: f32, left: *mut u16, left_count: usize, right: *mut u16, right_count: usize, neighbours: *mut u16,
        neighbours_count: usize, cartesian: *mut f32, cartesian_count: usize,
    ) -> Loaded;
    fn sofa_find(
        sizes: Sizes, lookup: Lookup, cartesian: *const f32, cartesian_count: usize, left: *const u16, left_count: usize, right: *const u16,
        right_count: usize, x: f32, y: f32, z: f32,
    ) -> Found;
    fn sofa_find_mut(
        sizes: Sizes, lookup: Lookup, cartesian: *const f32, cartesian_count: usize, left: *const u16, left_count: usize, right: *const u16,
        right_count: usize, coordinates: *mut f32,
    ) -> Found;
    fn sofa_filter(
        sizes: Sizes, lookup: Lookup, cartesian: *const f32, cartesian_count: usize, left: *const u16, left_count: usize, right: *const u16,
        right_count: usize, neighbours: *const u16, neighbours_count: usize, responses: *const f32, responses_count: usize, delays: *const f32,
        delays_count: usize, rate: f32, x: f32, y: f32, z: f32, out_left: *mut f32, out_left_count: usize, out_right: *mut f32,
        out_right_count: usize,
    ) -> Filtered;
    fn sofa_filter_nointerp(
        sizes: Sizes, lookup: Lookup, cartesian: *const f32, cartesian_count: usize, left: *const u16, left_count: usize, right: *const u16,
        right_count: usize, responses: *const f32, responses_count: usize, delays: *const f32, delays_count: usize, rate: f32, x: f32, y: f32,
        z: f32, out_left: *mut f32, out_left_count: usize, out_right: *mut f32, out_right_count: usize,
    ) -> Filtered;
    fn sofa_filter_number(
        sizes: Sizes, responses: *const f32, responses_count: usize, delays: *const f32, delays_count: usize, rate: f32, number: usize,
        out_left: *mut f32, out_left_count: usize, out_right: *mut f32, out_right_count: usize,
    ) -> Filtered;
    fn sofa_left_response(sizes: Sizes, responses: *const f32, responses_count: usize, number: usize) -> Part;
    fn sofa_right_response(sizes: Sizes, responses: *const f32, responses_count: usize, number: usize) -> Part;
    fn sofa_neighbors_of(sizes: Sizes, neighbours: *const u16, neighbours_count: usize, number: usize) -> Around;
    fn sofa_max_delay(delays: *const f32, delays_count: usize, rate: f32) -> Value;
}

/// What a host holds of a set: the lists that it lends, and what the load handed back.
#[derive(Clone)]
pub struct Host {
    pub kind: u32,
    pub sizes: Sizes,
    pub positions: Vec<f32>,
    pub responses: Vec<f32>,
    pub delays: Vec<f32>,
    pub angle_step: f32,
    pub radius_step: f32,
    pub rate: f32,
    pub left: Vec<u16>,
    pub right: Vec<u16>,
    pub neighbours: Vec<u16>,
    pub cartesian: Vec<f32>,
    pub lookup: Lookup,
}

/// A filter's two outputs.
#[derive(Clone)]
pub struct Outputs {
    pub left: Vec<f32>,
    pub right: Vec<f32>,
}

pub fn to_spherical(values: &mut [f32]) -> Refusal {
    unsafe { sofa_to_spherical(values.as_mut_ptr(), values.len()) }
}

pub fn to_cartesian(values: &mut [f32]) -> Refusal {
    unsafe { sofa_to_cartesian(values.as_mut_ptr(), values.len()) }
}

impl Host {
    pub fn load(&mut self) -> Loaded {
        let loaded = unsafe {
            sofa_load(
                self.kind, self.sizes, self.positions.as_ptr(), self.positions.len(), self.responses.as_ptr(), self.responses.len(), self.angle_step,
                self.radius_step, self.rate, self.left.as_mut_ptr(), self.left.len(), self.right.as_mut_ptr(), self.right.len(),
                self.neighbours.as_mut_ptr(), self.neighbours.len(), self.cartesian.as_mut_ptr(), self.cartesian.len(),
            )
        };
        self.lookup = loaded.lookup;
        loaded
    }

    pub fn find(&self, q: [f32; 3]) -> Found {
        unsafe {
            sofa_find(
                self.sizes, self.lookup, self.cartesian.as_ptr(), self.cartesian.len(), self.left.as_ptr(), self.left.len(), self.right.as_ptr(),
                self.right.len(), q[0], q[1], q[2],
            )
        }
    }

    pub fn find_mut(&self, q: &mut [f32; 3]) -> Found {
        unsafe {
            sofa_find_mut(
                self.sizes, self.lookup, self.cartesian.as_ptr(), self.cartesian.len(), self.left.as_ptr(), self.left.len(), self.right.as_ptr(),
                self.right.len(), q.as_mut_ptr(),
            )
        }
    }

    pub fn filter(&self, q: [f32; 3], out: &mut Outputs) -> Filtered {
        unsafe {
            sofa_filter(
                self.sizes, self.lookup, self.cartesian.as_ptr(), self.cartesian.len(), self.left.as_ptr(), self.left.len(), self.right.as_ptr(),
                self.right.len(), self.neighbours.as_ptr(), self.neighbours.len(), self.responses.as_ptr(), self.responses.len(),
                self.delays.as_ptr(), self.delays.len(), self.rate, q[0], q[1], q[2], out.left.as_mut_ptr(), out.left.len(),
                out.right.as_mut_ptr(), out.right.len(),
            )
        }
    }

    pub fn filter_nointerp(&self, q: [f32; 3], out: &mut Outputs) -> Filtered {
        unsafe {
            sofa_filter_nointerp(
                self.sizes, self.lookup, self.cartesian.as_ptr(), self.cartesian.len(), self.left.as_ptr(), self.left.len(), self.right.as_ptr(),
                self.right.len(), self.responses.as_ptr(), self.responses.len(), self.delays.as_ptr(), self.delays.len(), self.rate, q[0], q[1],
                q[2], out.left.as_mut_ptr(), out.left.len(), out.right.as_mut_ptr(), out.right.len(),
            )
        }
    }

    pub fn filter_number(&self, number: usize, out: &mut Outputs) -> Filtered {
        unsafe {
            sofa_filter_number(
                self.sizes, self.responses.as_ptr(), self.responses.len(), self.delays.as_ptr(), self.delays.len(), self.rate, number,
                out.left.as_mut_ptr(), out.left.len(), out.right.as_mut_ptr(), out.right.len(),
            )
        }
    }

    pub fn left_response(&self, number: usize) -> Part {
        unsafe { sofa_left_response(self.sizes, self.responses.as_ptr(), self.responses.len(), number) }
    }

    pub fn right_response(&self, number: usize) -> Part {
        unsafe { sofa_right_response(self.sizes, self.responses.as_ptr(), self.responses.len(), number) }
    }

    pub fn neighbors_of(&self, number: usize) -> Around {
        unsafe { sofa_neighbors_of(self.sizes, self.neighbours.as_ptr(), self.neighbours.len(), number) }
    }

    pub fn max_delay(&self) -> Value {
        unsafe { sofa_max_delay(self.delays.as_ptr(), self.delays.len(), self.rate) }
    }
}
