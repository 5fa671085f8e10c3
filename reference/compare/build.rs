//! Links the C library, from the folder that KORVAMMEL_LIBRARY names, and the bench's rivals, from the one that KORVAMMEL_RIVALS names.

fn link(variable: &str, library: &str) {
    println!("cargo:rerun-if-env-changed={variable}");
    let folder = std::env::var(variable).unwrap_or_else(|_| panic!("{variable} names the folder of lib{library}.a"));
    println!("cargo:rerun-if-changed={folder}/lib{library}.a");
    println!("cargo:rustc-link-search=native={folder}");
    println!("cargo:rustc-link-lib=static={library}");
}

fn main() {
    if std::env::var_os("CARGO_FEATURE_RIVALS").is_some() {
        link("KORVAMMEL_RIVALS", "rivals");
    } else {
        link("KORVAMMEL_LIBRARY", "korvammel");
    }
}
