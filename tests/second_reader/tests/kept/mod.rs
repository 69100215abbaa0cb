//! The samples that are kept in the repository.

use std::path::Path;

pub fn kept(name: &str) -> Vec<u8> {
    let path = Path::new(env!("CARGO_MANIFEST_DIR")).join("sample").join(name);
    std::fs::read(&path).expect("the sample is kept in the folder `sample`")
}
