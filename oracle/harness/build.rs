//! Tells cargo where build.sh put the libraries, so that a new library is linked anew.

fn main() {
    println!("cargo:rerun-if-env-changed=STATICLIB");
    if let Ok(folder) = std::env::var("STATICLIB") {
        println!("cargo:rustc-link-search=native={folder}");
        for library in ["geometry_c", "cone_c", "walk_c", "steps_c", "cart_c"] {
            println!("cargo:rerun-if-changed={folder}/lib{library}.a");
        }
    }
}
