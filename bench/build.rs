// Links the archives that `trials/program speed` and `trials/program abi_c` write.
fn main() {
    let folder = std::env::var("STATICLIB").expect("STATICLIB names the folder of libspeed.a and libabi_c.a");
    println!("cargo:rustc-link-search=native={folder}");
    println!("cargo:rerun-if-env-changed=STATICLIB");
    for name in ["speed", "abi_c"] {
        println!("cargo:rustc-link-lib=static={name}");
        println!("cargo:rerun-if-changed={folder}/lib{name}.a");
    }
}
