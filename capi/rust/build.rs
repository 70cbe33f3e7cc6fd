//! Links libmooringakee.a: that of the folder in MOORINGAKEE_LIB, else the one that `make -C capi` leaves in capi/out.

use std::env;
use std::path::PathBuf;

fn main() {
    let folder = match env::var_os("MOORINGAKEE_LIB") {
        Some(folder) => PathBuf::from(folder),
        None => PathBuf::from(env::var_os("CARGO_MANIFEST_DIR").unwrap()).join("../out"),
    };
    let library = folder.join("libmooringakee.a");
    if !library.is_file() {
        panic!(
            "{} is not there: run make -C capi, or set MOORINGAKEE_LIB",
            library.display()
        );
    }
    println!("cargo:rerun-if-env-changed=MOORINGAKEE_LIB");
    println!("cargo:rerun-if-changed={}", library.display());
    println!("cargo:rustc-link-search=native={}", folder.display());
    println!("cargo:rustc-link-lib=static=mooringakee");
}
