//! Tells Cargo where `libclof.a` is: in the folder that `CLOF_LIB` names, or where `make install` puts it.
use std::env::var;

fn main() {
    let folder = var("CLOF_LIB").unwrap_or_else(|_| "/usr/local/lib".to_string());
    println!("cargo:rerun-if-env-changed=CLOF_LIB");
    println!("cargo:rustc-link-search=native={folder}");
}
