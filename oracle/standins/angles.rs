//! Sine, cosine and arctangent of the port's archive, for the redirected build. On document 01's domain no argument is refused.

#[repr(C)]
struct Value {
    reason: u32,
    place: usize,
    value: f32,
}

unsafe extern "C" {
    fn sofa_sine(x: f32) -> Value;
    fn sofa_cosine(x: f32) -> Value;
    fn sofa_arctangent(y: f32, x: f32) -> Value;
}

pub trait Angles {
    fn port_sin(self) -> f32;
    fn port_cos(self) -> f32;
    fn port_atan2(self, x: f32) -> f32;
}

fn told(v: Value) -> f32 {
    assert!(v.reason == 0, "an angle call was refused: {} at {}", v.reason, v.place);
    v.value
}

impl Angles for f32 {
    fn port_sin(self) -> f32 {
        told(unsafe { sofa_sine(self) })
    }

    fn port_cos(self) -> f32 {
        told(unsafe { sofa_cosine(self) })
    }

    fn port_atan2(self, x: f32) -> f32 {
        told(unsafe { sofa_arctangent(self, x) })
    }
}
