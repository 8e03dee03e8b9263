// Links Sarpukten's static library and libgit2 (its static library too: the functions that parse an object from memory are not in the shared one).
fn main() {
    let folder = std::env::var("SARPUKTEN_LIB").expect("SARPUKTEN_LIB: the folder of libsarpukten.a");
    println!("cargo:rerun-if-env-changed=SARPUKTEN_LIB");
    println!("cargo:rerun-if-changed={folder}/libsarpukten.a");
    println!("cargo:rustc-link-search=native={folder}");
    println!("cargo:rustc-link-lib=static=sarpukten");
    println!("cargo:rustc-link-search=native=/usr/lib/x86_64-linux-gnu");
    println!("cargo:rustc-link-lib=static:-bundle=git2");
    for library in ["mbedtls", "mbedx509", "mbedcrypto", "http_parser", "ssh2", "gssapi_krb5", "pcre2-8", "z"] {
        println!("cargo:rustc-link-lib=dylib={library}");
    }
}
