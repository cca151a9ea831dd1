fn main() {
    let here = std::env::var("CARGO_MANIFEST_DIR").unwrap();
    let archives = format!("{here}/../target/staticlib");
    println!("cargo:rustc-link-search=native={archives}");
    for name in ["capi", "probe"] {
        println!("cargo:rustc-link-lib=static={name}");
        println!("cargo:rerun-if-changed={archives}/lib{name}.a");
    }
}
