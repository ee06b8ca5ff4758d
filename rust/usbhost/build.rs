//! Links the archive that USBHOST_LIB names, such as `libraries/x86-64-v2/libusb_handle.a` of tools/c_library.
use std::env;
use std::path::Path;

fn main() {
    println!("cargo::rerun-if-env-changed=USBHOST_LIB");
    let Some(archive) = env::var_os("USBHOST_LIB") else {
        println!("cargo::warning=USBHOST_LIB names no archive, so no program can be linked");
        return;
    };
    let archive = Path::new(&archive);
    let (Some(folder), Some(name)) = (archive.parent(), archive.file_name()) else {
        panic!("USBHOST_LIB names no file: {}", archive.display());
    };
    println!("cargo::rerun-if-changed={}", archive.display());
    println!("cargo::rustc-link-search=native={}", folder.display());
    println!("cargo::rustc-link-lib=static:+verbatim={}", name.display());
}
