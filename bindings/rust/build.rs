//! Links the static library in the folder that `BOOTPLAN_LIB` gives.

fn main() {
    println!("cargo::rerun-if-env-changed=BOOTPLAN_LIB");
    let path = std::env::var("BOOTPLAN_LIB").expect("BOOTPLAN_LIB is not set");
    let library = std::fs::canonicalize(&path).unwrap_or_else(|e| panic!("{path}: {e}"));
    println!(
        "cargo::rerun-if-changed={}/libbootplan_c.a",
        library.display()
    );
    println!("cargo::rustc-link-search=native={}", library.display());
    println!("cargo::rustc-link-lib=static=bootplan_c");
}
