//! Finds librpkirtr: in the folder of RPKIRTR_LIB_DIR, or where pkg-config says, or else where the linker looks. It fetches nothing.
use std::env;
use std::process::Command;

fn main() {
    println!("cargo:rerun-if-env-changed=RPKIRTR_LIB_DIR");
    println!("cargo:rustc-link-lib=rpkirtr");
    if let Ok(folder) = env::var("RPKIRTR_LIB_DIR") {
        println!("cargo:rustc-link-search=native={folder}");
        return;
    }
    let told = Command::new("pkg-config").args(["--libs-only-L", "rpkirtr"]).output().map_or(Vec::new(), |it| it.stdout);
    for word in String::from_utf8_lossy(&told).split_whitespace() {
        if let Some(folder) = word.strip_prefix("-L") {
            println!("cargo:rustc-link-search=native={folder}");
        }
    }
}
