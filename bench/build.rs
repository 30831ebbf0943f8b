//! Links the archives of the proved code, which `./prove` leaves, to the program that calls into them and to no other.

use std::path::Path;

const ARCHIVES: [&str; 2] = ["libbench_hooks.a", "libmspis_c.a"];

fn main() {
    let root = Path::new(env!("CARGO_MANIFEST_DIR"))
        .parent()
        .expect("bench lies in the repository");
    for archive in ARCHIVES {
        let path = root.join("target/staticlib").join(archive);
        println!("cargo:rustc-link-arg-bin=bench={}", path.display());
        println!("cargo:rerun-if-changed={}", path.display());
    }
}
