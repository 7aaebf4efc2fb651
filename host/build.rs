// Links the library that `bash host/build.sh export` writes, in target/ of this repository. It is x86-64 code.
fn main() {
    let here = std::env::var("CARGO_MANIFEST_DIR").expect("cargo says where the package is");
    let folder = std::path::Path::new(&here).join("../target/staticlib");
    println!("cargo:rerun-if-changed={}", folder.join("libexport.a").display());
    if std::env::var("CARGO_CFG_TARGET_ARCH").as_deref() == Ok("x86_64") {
        println!("cargo:rustc-link-search=native={}", folder.display());
        println!("cargo:rustc-link-lib=static=export");
    } else {
        // the benchmark alone: host/bench/native.sh compiles the library for this processor, for measuring
        let native = std::path::Path::new(&here).join("../target/native/libexport.a");
        println!("cargo:rerun-if-changed={}", native.display());
        println!("cargo:rustc-link-arg-benches={}", native.display());
    }
}
