//! With the feature `linked`: links the library from the folder that `run` names.

fn main() {
    println!("cargo:rerun-if-changed=build.rs");
    if std::env::var_os("CARGO_FEATURE_LINKED").is_none() {
        return;
    }
    println!("cargo:rerun-if-env-changed=RUFFLEKNOLL_FOLDER");
    let Ok(folder) = std::env::var("RUFFLEKNOLL_FOLDER") else {
        panic!("RUFFLEKNOLL_FOLDER names the folder of libruffleknoll.a: rust/compare/run sets it");
    };
    println!("cargo:rerun-if-changed={folder}/libruffleknoll.a");
    println!("cargo:rustc-link-search=native={folder}");
    println!("cargo:rustc-link-lib=static=ruffleknoll");
}
