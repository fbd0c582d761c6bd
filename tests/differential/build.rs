//! Links the archives of proved functions that `run` has put below target/: one for each crate LAYER_exported.

fn main() {
    let root = format!("{}/../..", env!("CARGO_MANIFEST_DIR"));
    let built = format!("{root}/target/differential");
    println!("cargo:rustc-link-search=native={built}");
    println!("cargo:rerun-if-changed={root}/crates");
    for folder in std::fs::read_dir(format!("{root}/crates")).expect("the project's crates") {
        let name = folder.expect("a folder of the crates").file_name();
        let name = name.to_str().expect("a crate's name");
        if name.ends_with("_exported") {
            println!("cargo:rustc-link-lib=static={name}");
            println!("cargo:rerun-if-changed={built}/lib{name}.a");
        }
    }
}
