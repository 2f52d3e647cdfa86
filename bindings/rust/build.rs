//! Says where the tables lie: in `table` of a crate that was laid out for others, else in `data` of the repository.
use std::env::var;
use std::path::Path;

fn main() {
    let here = var("CARGO_MANIFEST_DIR").unwrap();
    let laid = format!("{here}/table");
    let tables = if Path::new(&laid).is_dir() { laid } else { format!("{here}/../../data") };
    println!("cargo:rerun-if-changed=build.rs");
    println!("cargo:rerun-if-changed={tables}/VERSION");
    println!("cargo:rustc-env=PHONE_TABLES={tables}");
}
