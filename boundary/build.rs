//! Says where the proved libraries stand: `rt lib` in crates/embed and in crates/probe writes them.

use std::env;
use std::path::Path;

fn main() {
    let manifest = env::var("CARGO_MANIFEST_DIR").expect("cargo gives the package's folder");
    for name in ["embed", "probe"] {
        let folder = Path::new(&manifest).join("../crates").join(name).join("out");
        let library = folder.join(format!("lib{name}.a"));
        println!("cargo:rustc-link-search=native={}", folder.display());
        println!("cargo:rerun-if-changed={}", library.display());
        if !library.exists() {
            println!("cargo:warning=crates/{name}/out/lib{name}.a is missing: run `rt lib` in crates/{name} first");
        }
    }
}
