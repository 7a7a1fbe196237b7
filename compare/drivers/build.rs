//! Where liblabel_c.a is, for the drivers that link it.

fn main() {
    println!("cargo:rerun-if-env-changed=LABEL_C");
    if let Ok(folder) = std::env::var("LABEL_C") {
        println!("cargo:rustc-link-search=native={folder}");
        println!("cargo:rerun-if-changed={folder}/liblabel_c.a");
    }
}
