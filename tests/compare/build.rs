//! Which archives the two programs are linked with: COMPARE_LIBRARY and COMPARE_FAULTY are folders with libdispatcher.a and libprobe.a.
fn main() {
    for (program, variable) in [("compare", "COMPARE_LIBRARY"), ("compare-faulty", "COMPARE_FAULTY")] {
        println!("cargo:rerun-if-env-changed={variable}");
        let Ok(folder) = std::env::var(variable) else { continue };
        for archive in ["libdispatcher.a", "libprobe.a"] {
            println!("cargo:rerun-if-changed={folder}/{archive}");
            println!("cargo:rustc-link-arg-bin={program}={folder}/{archive}");
        }
    }
}
