//! Links libmhlink.a from `$MHLINK_PREFIX/lib`, a prefix that `tools/build_c` filled, or the library that the linker finds.

use std::env;

fn main() {
    println!("cargo:rerun-if-env-changed=MHLINK_PREFIX");
    match env::var("MHLINK_PREFIX") {
        Ok(prefix) => {
            println!("cargo:rerun-if-changed={prefix}/lib/libmhlink.a");
            println!("cargo:rustc-link-search=native={prefix}/lib");
            println!("cargo:rustc-link-lib=static=mhlink");
        }
        Err(_) => println!("cargo:rustc-link-lib=mhlink"),
    }
}
