//! The two types that the source's reader fills.

use std::collections::HashMap;

#[derive(Debug, Clone, Default)]
pub struct Array {
    pub values: Vec<f32>,
    pub attributes: HashMap<String, String>,
}

impl Array {
    pub fn get_attribute(&self, name: &str) -> Option<&str> {
        self.attributes.get(name).map(|s| s.as_str())
    }
}

#[derive(Debug, Clone, Default)]
pub struct Dimensions {
    pub i: u32,
    pub c: u32,
    pub r: u32,
    pub e: u32,
    pub n: u32,
    pub m: u32,
}
