//! Links SQLite where `run` found it; the library comes with `compare`.

fn main() {
    println!("cargo:rerun-if-changed=build.rs");
    if std::env::var_os("CARGO_FEATURE_SQLITE").is_some() {
        println!("cargo:rustc-link-lib=sqlite3");
    }
}
