//! The sides of a comparison behind one form: the port through its archive, the source unchanged and redirected, and libmysofa.

use crate::port::{Host, Lookup, Outputs, Sizes};
use crate::sets::Set;

pub trait Side {
    /// Makes the set ready, from nothing.
    fn load(&mut self);
    fn find(&self, q: [f32; 3]) -> usize;
    /// The filter at a query, blended or plain; the samples are in `out` then.
    fn filter(&mut self, q: [f32; 3]);
    fn plain(&mut self, q: [f32; 3]);
    fn out(&self) -> (&[f32], &[f32]);
}

pub struct Port {
    host: Host,
    out: Outputs,
}

impl Port {
    pub fn new(set: &Set) -> Port {
        let m = set.m;
        let host = Host {
            kind: set.kind,
            sizes: Sizes { m, c: 3, r: 2, n: set.n },
            positions: set.positions.clone(),
            responses: set.responses.clone(),
            delays: set.delays.clone(),
            angle_step: set.angle_step,
            radius_step: set.radius_step,
            rate: set.rate,
            left: vec![0; m],
            right: vec![0; m],
            neighbours: vec![0; 6 * m],
            cartesian: vec![0.0; 3 * m],
            lookup: Lookup { corners: [0.0; 6], bounds: [0.0; 6] },
        };
        let mut port = Port { host, out: Outputs { left: vec![0.0; set.n], right: vec![0.0; set.n] } };
        port.load();
        port
    }
}

impl Side for Port {
    fn load(&mut self) {
        assert_eq!(self.host.load().reason, 0);
    }

    fn find(&self, q: [f32; 3]) -> usize {
        self.host.find(q).number as usize
    }

    fn filter(&mut self, q: [f32; 3]) {
        assert_eq!(self.host.filter(q, &mut self.out).reason, 0);
    }

    fn plain(&mut self, q: [f32; 3]) {
        assert_eq!(self.host.filter_nointerp(q, &mut self.out).reason, 0);
    }

    fn out(&self) -> (&[f32], &[f32]) {
        (&self.out.left, &self.out.right)
    }
}

/// A set through the source's own front door: its reader's bytes, by the stand-in for the parser.
fn bytes(set: &Set) -> Vec<u8> {
    let mut bytes = Vec::new();
    for w in [set.m, 2, set.n, set.kind as usize, set.responses.len(), set.delays.len()] {
        bytes.extend((w as u32).to_le_bytes());
    }
    for v in set.positions.iter().chain(&set.responses).chain(&set.delays).chain([&set.rate]) {
        bytes.extend(v.to_le_bytes());
    }
    bytes
}

/// The same code over the two builds of the source, which are two crates.
macro_rules! source {
    ($name:ident, $crate_name:ident) => {
        pub struct $name {
            sofar: $crate_name::reader::Sofar,
            filter: $crate_name::filter::Filter,
            spherical: Option<Vec<f32>>,
            steps: (f32, f32),
        }

        impl $name {
            pub fn new(set: &Set) -> $name {
                let mut options = $crate_name::reader::OpenOptions::new();
                options.sample_rate(set.rate).neighbor_angle_step(set.angle_step).neighbor_radius_step(set.radius_step).normalized(false);
                let sofar = options.open_data(bytes(set)).map_err(|_| "refused").expect("the source opens the set");
                let spherical = if set.kind == 1 { Some(set.positions.clone()) } else { None };
                $name { sofar, filter: $crate_name::filter::Filter::new(set.n), spherical, steps: (set.angle_step, set.radius_step) }
            }
        }

        impl Side for $name {
            /// What opening does once the file is read: the conversion, the lookup, the neighbours.
            fn load(&mut self) {
                if let Some(values) = &self.spherical {
                    let mut values = values.clone();
                    $crate_name::sofa::coords::convert_array_to_cartesian(&mut values);
                    std::hint::black_box(values);
                }
                let hrtf = self.sofar.hrtf();
                let lookup = $crate_name::sofa::Lookup::new(hrtf).expect("a lookup");
                let neighborhood = $crate_name::sofa::Neighborhood::new(hrtf, &lookup, self.steps.0, self.steps.1);
                std::hint::black_box((lookup, neighborhood));
            }

            fn find(&self, q: [f32; 3]) -> usize {
                self.sofar.lookup().find(&q).expect("a measurement")
            }

            fn filter(&mut self, q: [f32; 3]) {
                self.sofar.filter(q[0], q[1], q[2], &mut self.filter);
            }

            fn plain(&mut self, q: [f32; 3]) {
                self.sofar.filter_nointerp(q[0], q[1], q[2], &mut self.filter);
            }

            fn out(&self) -> (&[f32], &[f32]) {
                (&self.filter.left, &self.filter.right)
            }
        }
    };
}

source!(Unchanged, unchanged);
source!(Redirected, redirected);
