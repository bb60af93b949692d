//! Links the static library and the C file of the kit. AMQP_LINK_ARCHIVE and AMQP_LINK_LIBC name the archives.
use std::env;
use std::path::Path;

fn link(variable: &str, name: &str) {
    println!("cargo:rerun-if-env-changed={variable}");
    let archive = match env::var(variable) {
        Ok(archive) => archive,
        Err(_) => {
            println!("cargo:warning={variable} is not set: it names lib{name}.a");
            return;
        }
    };
    let folder = Path::new(&archive).parent().expect("an archive is in a folder");
    println!("cargo:rustc-link-search=native={}", folder.display());
    println!("cargo:rustc-link-lib=static={name}");
}

fn main() {
    link("AMQP_LINK_ARCHIVE", "amqp_link_c");
    link("AMQP_LINK_LIBC", "libc_c");
}
