//! libmysofa over the same set, built in memory: for scale only, since its neighbours are found by other rules.

use std::ffi::{c_char, c_int, c_void};
use std::ptr::null_mut;

use crate::sets::Set;
use crate::sides::Side;

#[repr(C)]
struct Attribute {
    next: *mut Attribute,
    name: *const c_char,
    value: *const c_char,
}

#[repr(C)]
#[derive(Clone, Copy)]
struct Array {
    values: *mut f32,
    elements: u32,
    attributes: *mut Attribute,
}

const NONE: Array = Array { values: null_mut(), elements: 0, attributes: null_mut() };

/// Counts I, C, R, E, N, M; then listener, receiver, source, emitter, up, view, responses, rate, delays.
#[repr(C)]
struct Hrtf {
    counts: [u32; 6],
    arrays: [Array; 9],
    attributes: *mut Attribute,
    variables: *mut c_void,
}

#[link(name = "mysofa")]
unsafe extern "C" {
    fn mysofa_lookup_init(hrtf: *mut Hrtf) -> *mut c_void;
    fn mysofa_lookup(lookup: *mut c_void, coordinate: *mut f32) -> c_int;
    fn mysofa_lookup_free(lookup: *mut c_void);
    fn mysofa_neighborhood_init_withstepdefine(hrtf: *mut Hrtf, lookup: *mut c_void, angle: f32, radius: f32) -> *mut c_void;
    fn mysofa_neighborhood(neighborhood: *mut c_void, place: c_int) -> *mut c_int;
    fn mysofa_neighborhood_free(neighborhood: *mut c_void);
    fn mysofa_interpolate(hrtf: *mut Hrtf, coordinate: *mut f32, nearest: c_int, neighbours: *mut c_int, fir: *mut f32, delays: *mut f32) -> *mut f32;
}

pub struct Mysofa {
    set: Set,
    hrtf: Box<Hrtf>,
    lookup: *mut c_void,
    neighborhood: *mut c_void,
    fir: Vec<f32>,
    out: (Vec<f32>, Vec<f32>),
}

impl Mysofa {
    pub fn new(set: &Set) -> Mysofa {
        let mut set = set.clone();
        if set.kind == 1 {
            for p in set.positions.chunks_mut(3) {
                let (a, e, r) = (p[0].to_radians(), p[1].to_radians(), p[2]);
                p.copy_from_slice(&[a.cos() * e.cos() * r, a.sin() * e.cos() * r, e.sin() * r]);
            }
        }
        let kind = Box::leak(Box::new(Attribute { next: null_mut(), name: c"Type".as_ptr(), value: c"cartesian".as_ptr() }));
        let mut arrays = [NONE; 9];
        let mut lend = |i: usize, values: &mut Vec<f32>| arrays[i] = Array { values: values.as_mut_ptr(), elements: values.len() as u32, attributes: kind };
        lend(2, &mut set.positions);
        lend(6, &mut set.responses);
        lend(8, &mut set.delays);
        let counts = [1, 3, 2, 1, set.n as u32, set.m as u32];
        let hrtf = Box::new(Hrtf { counts, arrays, attributes: null_mut(), variables: null_mut() });
        let out = (vec![0.0; set.n], vec![0.0; set.n]);
        let mut side = Mysofa { fir: vec![0.0; 2 * set.n], out, set, hrtf, lookup: null_mut(), neighborhood: null_mut() };
        side.load();
        side
    }

    fn free(&mut self) {
        if !self.lookup.is_null() {
            unsafe { mysofa_neighborhood_free(self.neighborhood) };
            unsafe { mysofa_lookup_free(self.lookup) };
        }
    }

    fn put(&mut self, taps: *const f32) {
        let n = self.set.n;
        let taps = unsafe { std::slice::from_raw_parts(taps, 2 * n) };
        self.out.0.copy_from_slice(&taps[..n]);
        self.out.1.copy_from_slice(&taps[n..]);
    }
}

impl Drop for Mysofa {
    fn drop(&mut self) {
        self.free();
    }
}

impl Side for Mysofa {
    fn load(&mut self) {
        self.free();
        unsafe {
            self.lookup = mysofa_lookup_init(&mut *self.hrtf);
            assert!(!self.lookup.is_null());
            self.neighborhood = mysofa_neighborhood_init_withstepdefine(&mut *self.hrtf, self.lookup, self.set.angle_step, self.set.radius_step);
        }
    }

    fn find(&self, mut q: [f32; 3]) -> usize {
        unsafe { mysofa_lookup(self.lookup, q.as_mut_ptr()) as usize }
    }

    fn filter(&mut self, q: [f32; 3]) {
        let (mut at, mut delays) = (q, [0.0f32; 2]);
        let taps = unsafe {
            let nearest = mysofa_lookup(self.lookup, at.as_mut_ptr());
            let near = mysofa_neighborhood(self.neighborhood, nearest);
            mysofa_interpolate(&mut *self.hrtf, at.as_mut_ptr(), nearest, near, self.fir.as_mut_ptr(), delays.as_mut_ptr())
        };
        self.put(taps);
    }

    fn plain(&mut self, q: [f32; 3]) {
        let place = self.find(q) * 2 * self.set.n;
        let taps = unsafe { self.set.responses.as_ptr().add(place) };
        self.put(taps);
    }

    fn out(&self) -> (&[f32], &[f32]) {
        (&self.out.0, &self.out.1)
    }
}
