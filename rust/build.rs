//! Links the proved library. It is built from the repository's root by `tools/library`.

use std::env;
use std::path::PathBuf;

const LIBRARY: &str = "libadarbukoi.a";

fn main() {
    println!("cargo:rerun-if-env-changed=ADARBUKOI_LIB");
    let folder = match env::var_os("ADARBUKOI_LIB") {
        Some(named) => PathBuf::from(named),
        None => PathBuf::from(env::var_os("CARGO_MANIFEST_DIR").unwrap()).join("../target/staticlib"),
    };
    let library = folder.join(LIBRARY);
    println!("cargo:rerun-if-changed={}", library.display());
    if !library.is_file() {
        eprintln!("{} is not there.", library.display());
        eprintln!("Build it at the repository's root with `tools/library`,");
        eprintln!("or set ADARBUKOI_LIB to the folder that holds {LIBRARY}.");
        std::process::exit(1);
    }
    println!("cargo:rustc-link-search=native={}", folder.display());
    println!("cargo:rustc-link-lib=static=adarbukoi");
}
