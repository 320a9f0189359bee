//! Links the archive of `$LICHENKNIT_LIB_DIR`, or the shared library of the system.

fn main() {
    println!("cargo::rerun-if-env-changed=LICHENKNIT_LIB_DIR");
    match std::env::var("LICHENKNIT_LIB_DIR") {
        Ok(folder) => {
            let archive = format!("{folder}/liblichenknit.a");
            assert!(
                std::path::Path::new(&archive).exists(),
                "LICHENKNIT_LIB_DIR: there is no {archive}"
            );
            println!("cargo::rerun-if-changed={archive}");
            println!("cargo::rustc-link-search=native={folder}");
            println!("cargo::rustc-link-lib=static=lichenknit");
        }
        Err(_) => println!("cargo::rustc-link-lib=dylib=lichenknit"),
    }
}
