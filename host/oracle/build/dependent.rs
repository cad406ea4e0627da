//! The build script of a crate whose tests ask the oracle: sets the cfg `polars_src` where the oracle has its text. The
//! tests that need the text are ignored without it.

use std::env;

fn main() {
    println!("cargo::rerun-if-changed=../oracle/build/dependent.rs");
    println!("cargo::rustc-check-cfg=cfg(polars_src)");
    if env::var_os("DEP_POLARS_SRC_FOUND").is_some() {
        println!("cargo::rustc-cfg=polars_src");
    }
}
