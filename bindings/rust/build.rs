//! Says where `./build store` left the library: `FINNEDSCARF_LIB`, or the repository's own target folder.

fn main() {
    let own = concat!(env!("CARGO_MANIFEST_DIR"), "/../../target/staticlib");
    let folder = std::env::var("FINNEDSCARF_LIB").unwrap_or_else(|_| own.to_string());
    println!("cargo:rerun-if-env-changed=FINNEDSCARF_LIB");
    println!("cargo:rustc-link-search=native={folder}");
}
