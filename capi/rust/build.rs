// SPDX-License-Identifier: Apache-2.0 OR MIT
//! Links libtd_c.a and libtd_heap.a, out of the folder that TD_LIB_DIR names, if it is set.
fn main() {
    println!("cargo:rerun-if-env-changed=TD_LIB_DIR");
    if let Ok(folder) = std::env::var("TD_LIB_DIR") {
        println!("cargo:rustc-link-search=native={folder}");
    }
    println!("cargo:rustc-link-lib=static=td_c");
    println!("cargo:rustc-link-lib=static=td_heap");
}
