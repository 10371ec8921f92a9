//! Links the archive of the port where the feature asks for it.
fn main() {
    println!("cargo:rerun-if-env-changed=PORT_ARCHIVE");
    if std::env::var_os("CARGO_FEATURE_OURS").is_some() {
        let folder = std::env::var("PORT_ARCHIVE").expect("PORT_ARCHIVE names the archive's folder");
        println!("cargo:rustc-link-search=native={folder}");
        println!("cargo:rustc-link-lib=static=test_states");
        println!("cargo:rerun-if-changed={folder}/libtest_states.a");
    }
}
