//! Links the library. In the repository, where RATTLE_KIT names the kit's folder, it is what `rt lib` made in crates/phone_c, or lies in
//! PHONE_LIB_DIR, with the table that `make` made in bindings/c, and the heap is that of the kit: `tools/bindings` does all this. Else
//! pkg-config is asked for `phonenumber-proved`, an installed library; else it lies in lib/TARGET of a crate that was laid out for others.
//! Where there is none the build stops, but for docs.rs.
use std::env::var;
use std::path::Path;
use std::process::Command;

/// What pkg-config tells of the installed library, asked so; none where it fails.
fn told(question: &str) -> Option<String> {
    let program = var("PKG_CONFIG").unwrap_or("pkg-config".into());
    let ran = Command::new(program).args([question, "phonenumber-proved"]).output().ok()?;
    if ran.status.success() { String::from_utf8(ran.stdout).ok() } else { None }
}

/// The words to link the installed library, where it is there and serves this crate's calls.
fn installed() -> Option<String> {
    let is_native = var("TARGET") == var("HOST") || var("PKG_CONFIG_ALLOW_CROSS").is_ok();
    // Asked for a version, pkg-config tells nothing else.
    told(&format!("--atleast-version={}", var("CARGO_PKG_VERSION").unwrap())).filter(|_| is_native)?;
    told("--libs")
}

/// Tells cargo what pkg-config told.
fn link(words: &str) {
    for word in words.split_whitespace() {
        if let Some(folder) = word.strip_prefix("-L") {
            println!("cargo:rustc-link-search=native={folder}");
        } else if let Some(library) = word.strip_prefix("-l") {
            println!("cargo:rustc-link-lib={library}");
        }
    }
}

fn main() {
    let (here, target) = (var("CARGO_MANIFEST_DIR").unwrap(), var("TARGET").unwrap());
    let laid = format!("{here}/lib/{target}");
    println!("cargo:rerun-if-changed=build.rs");
    for name in ["PHONE_LIB_DIR", "RATTLE_KIT", "PKG_CONFIG", "PKG_CONFIG_PATH", "PKG_CONFIG_LIBDIR", "DOCS_RS"] {
        println!("cargo:rerun-if-env-changed={name}");
    }
    if let Ok(kit) = var("RATTLE_KIT") {
        let built = var("PHONE_LIB_DIR").unwrap_or(format!("{here}/../../../crates/phone_c/out"));
        let folders = [(built, "phone_c"), (format!("{here}/../../c/out"), "phone_world"), (format!("{kit}/c"), "libc_c")];
        for (folder, library) in &folders {
            println!("cargo:rerun-if-changed={folder}/lib{library}.a");
            println!("cargo:rustc-link-search=native={folder}");
        }
        for library in ["phone_world", "phone_c", "libc_c"] {
            println!("cargo:rustc-link-lib=static={library}");
        }
    } else if let Some(words) = installed() {
        link(&words);
    } else if Path::new(&laid).is_dir() {
        println!("cargo:rerun-if-changed={laid}");
        println!("cargo:rustc-link-search=native={laid}");
        println!("cargo:rustc-link-lib=static=phonenumber-proved");
    } else if var("DOCS_RS").is_ok() {
        println!("cargo:warning=there is no library for this target: no program will link");
    } else {
        eprintln!("phonenumber-proved-sys has no library for {target}, and pkg-config tells of none named phonenumber-proved");
        std::process::exit(1);
    }
}
