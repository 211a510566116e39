//! Links the proved library. GETTAVIL_LIB is the folder that it lies in: as `make install` of
//! `bindings/c` puts it there, or as `rt lib` makes it in `crates/wire_c/out`, which is the folder
//! where the variable is not set.

use std::env;
use std::path::PathBuf;

/// The names of the library as it is installed and as it is made.
const NAMES: [&str; 2] = ["gettavil", "wire_c"];

fn main() {
    let here = PathBuf::from(env::var_os("CARGO_MANIFEST_DIR").unwrap());
    let folder = env::var_os("GETTAVIL_LIB")
        .map_or_else(|| here.join("../../crates/wire_c/out"), PathBuf::from);
    let file_of = |name: &str| folder.join(format!("lib{name}.a"));
    let name = NAMES.into_iter().find(|name| file_of(name).is_file()).unwrap_or_else(|| {
        panic!(
            "no libgettavil.a and no libwire_c.a in {}: run `rt lib` in crates/wire_c, or let \
             GETTAVIL_LIB be the folder of the library",
            folder.display()
        )
    });
    println!("cargo:rustc-link-search=native={}", folder.display());
    println!("cargo:rustc-link-lib=static={name}");
    println!("cargo:rerun-if-changed={}", file_of(name).display());
    println!("cargo:rerun-if-env-changed=GETTAVIL_LIB");
}
