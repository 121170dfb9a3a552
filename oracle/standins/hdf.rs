//! In place of the HDF parser: a set as plain words, little-endian. Counts m, r, n, kind (1 spherical), taps, delays; then positions (3m), taps, delays, rate.

#[derive(Debug)]
pub struct Error;

pub struct Attribute {
    pub name: String,
    pub value: Option<String>,
}

pub struct Directory {
    pub name: String,
}

pub struct Root {
    pub parsed_attributes: Vec<Attribute>,
    pub child_directories: Vec<Directory>,
}

pub enum DataFormat {
    Float { bit_precision: u16 },
    Other,
}

pub struct DataType {
    pub class_and_version: u8,
    pub data_fmt: Option<DataFormat>,
    pub size: u32,
}

pub struct DataSpace {
    pub dimensionality: u8,
    pub dimension_size: Vec<u64>,
}

pub struct DataObject {
    pub parsed_attributes: Vec<Attribute>,
    pub data: Vec<u8>,
    pub dt: DataType,
    pub ds: DataSpace,
}

pub struct ParsedHdf<'a> {
    pub root: Root,
    data: &'a [u8],
}

fn attribute(name: &str, value: &str) -> Attribute {
    Attribute { name: name.to_string(), value: Some(value.to_string()) }
}

pub fn parse_with_children(data: &[u8]) -> Result<ParsedHdf<'_>, Error> {
    let child_directories = ["I", "C", "R", "E", "N", "M"].map(|n| Directory { name: n.to_string() }).into();
    let root = Root { parsed_attributes: vec![attribute("Conventions", "SOFA")], child_directories };
    Ok(ParsedHdf { root, data })
}

impl ParsedHdf<'_> {
    fn word(&self, i: usize) -> usize {
        u32::from_le_bytes(self.data[4 * i..4 * i + 4].try_into().unwrap()) as usize
    }

    pub fn get_child(&self, name: &str) -> Option<Result<DataObject, Error>> {
        let (m, r, n, taps, delays) = (self.word(0), self.word(1), self.word(2), self.word(4), self.word(5));
        let (start, count, dimension_size) = match name {
            "SourcePosition" => (6, 3 * m, vec![m as u64, 3]),
            "Data.IR" => (6 + 3 * m, taps, vec![m as u64, r as u64, n as u64]),
            "Data.Delay" => (6 + 3 * m + taps, delays, vec![delays as u64]),
            "Data.SamplingRate" => (6 + 3 * m + taps + delays, 1, vec![1]),
            _ => return None,
        };
        let kind = if self.word(3) == 1 { "spherical" } else { "cartesian" };
        Some(Ok(DataObject {
            parsed_attributes: vec![attribute("Type", kind)],
            data: self.data[4 * start..4 * (start + count)].to_vec(),
            dt: DataType { class_and_version: 1, data_fmt: Some(DataFormat::Float { bit_precision: 32 }), size: 4 },
            ds: DataSpace { dimensionality: dimension_size.len() as u8, dimension_size },
        }))
    }
}
