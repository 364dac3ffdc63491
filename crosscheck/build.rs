//! Links the static library under test. RUTZEBAM_LIB_DIR names another directory that holds it.

use std::env;
use std::path::PathBuf;

fn main() {
    let directory = match env::var_os("RUTZEBAM_LIB_DIR") {
        Some(given) => PathBuf::from(given),
        None => {
            let package = env::var_os("CARGO_MANIFEST_DIR").expect("set by cargo");
            PathBuf::from(package).join("../target/staticlib")
        }
    };
    let directory = directory.display();
    println!("cargo:rustc-link-search=native={directory}");
    println!("cargo:rustc-link-lib=static=rutzebam");
    println!("cargo:rerun-if-env-changed=RUTZEBAM_LIB_DIR");
    println!("cargo:rerun-if-changed={directory}/librutzebam.a");
}
