//! Tells the linker where the archive lies.

fn main() {
    println!("cargo::rerun-if-env-changed=TOLLBURROW_LIB_DIR");
    let dir = std::env::var("TOLLBURROW_LIB_DIR")
        .expect("TOLLBURROW_LIB_DIR names the directory that holds libtollburrow.a");
    println!("cargo::rerun-if-changed={dir}/libtollburrow.a");
    println!("cargo::rustc-link-search=native={dir}");
    println!("cargo::rustc-link-lib=static=tollburrow");
}
