//! Links the proved library, the C part of its kit, and the C++ peer, which `run` puts into `out/`.

fn main() {
    let folder = std::env::var("CARGO_MANIFEST_DIR").unwrap() + "/out";
    println!("cargo:rustc-link-search=native={folder}");
    for library in ["wire_bench", "libc_c", "peer"] {
        println!("cargo:rustc-link-lib=static={library}");
        println!("cargo:rerun-if-changed={folder}/lib{library}.a");
    }
    println!("cargo:rustc-link-lib=protobuf");
    println!("cargo:rustc-link-lib=stdc++");
}
