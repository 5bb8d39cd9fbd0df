//! Says where the Rattle library and what it rests on lie.

fn main() {
    for name in ["RATTLE_LIBRARY", "RATTLE_RUNTIME"] {
        let folder = std::env::var(name).expect("run sets the folders of the libraries");
        println!("cargo:rerun-if-env-changed={name}");
        println!("cargo:rustc-link-search=native={folder}");
        println!("cargo:rerun-if-changed={folder}");
    }
}
