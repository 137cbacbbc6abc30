//! Links the proved library when `FRAME_LIB_DIR` names the folder that holds `libframe.a`.

use std::env;

fn main() {
    println!("cargo:rustc-check-cfg=cfg(frame_library)");
    println!("cargo:rerun-if-changed=build.rs");
    println!("cargo:rerun-if-env-changed=FRAME_LIB_DIR");
    if let Ok(folder) = env::var("FRAME_LIB_DIR") {
        println!("cargo:rerun-if-changed={folder}/libframe.a");
        println!("cargo:rustc-link-search=native={folder}");
        println!("cargo:rustc-link-lib=static=frame");
        println!("cargo:rustc-cfg=frame_library");
    }
}
