//! Calls of malloc go through `__wrap_malloc`, which counts them.
fn main() {
    println!("cargo:rustc-link-arg-bin=against-time=-Wl,--wrap=malloc");
}
