//! Links the library that `hosts/build` made, in `hosts/out` or where the variable GIQAYMU_OUT says.

fn main() {
    let made = concat!(env!("CARGO_MANIFEST_DIR"), "/../out");
    let out = std::env::var("GIQAYMU_OUT").unwrap_or_else(|_| made.to_owned());
    println!("cargo::rerun-if-env-changed=GIQAYMU_OUT");
    println!("cargo::rerun-if-changed={out}/libgiqaymu.a");
    println!("cargo::rustc-link-search=native={out}");
    println!("cargo::rustc-link-lib=static=giqaymu");
}
