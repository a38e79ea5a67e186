//! Compiles src/shim.c into an archive and links it with libpng and zlib.

use std::env;
use std::io::Write;
use std::path::{Path, PathBuf};
use std::process::{Command, Stdio};

fn main() {
    for watched in ["src/shim.c", "src/shim.h"] {
        println!("cargo:rerun-if-changed={watched}");
    }
    println!("cargo:rerun-if-env-changed=CC");
    let compiler = env::var_os("CC").filter(|named| !named.is_empty()).unwrap_or_else(|| "cc".into());
    let compiler = Path::new(&compiler);
    if !has_headers(compiler) {
        panic!("png.h of libpng or zlib.h of zlib is not there: run `bash tools/set_up` in the checkout");
    }
    let folder = PathBuf::from(env::var_os("OUT_DIR").expect("cargo names a folder for what is built"));
    let (object, archive) = (folder.join("shim.o"), folder.join("libpng_shim.a"));
    let flags = ["-std=c99", "-O2", "-Wall", "-Wextra", "-Werror", "-fPIC", "-c", "src/shim.c", "-o"];
    run(Command::new(compiler).args(flags).arg(&object));
    // An archive that is there would be added to.
    let _ = std::fs::remove_file(&archive);
    run(Command::new("ar").arg("crs").arg(&archive).arg(&object));
    println!("cargo:rustc-link-search=native={}", folder.display());
    println!("cargo:rustc-link-lib=static=png_shim");
    println!("cargo:rustc-link-lib=png");
    println!("cargo:rustc-link-lib=z");
}

/// Whether the compiler finds both libraries' headers.
fn has_headers(compiler: &Path) -> bool {
    let mut probe = Command::new(compiler)
        .args(["-fsyntax-only", "-x", "c", "-"])
        .stdin(Stdio::piped())
        .stderr(Stdio::null())
        .spawn()
        .unwrap_or_else(|error| panic!("{} does not start ({error}): run `bash tools/set_up`", compiler.display()));
    // Dropped at the end of the line, so that the compiler sees the end of its input.
    let given = probe.stdin.take().map(|mut input| input.write_all(b"#include <png.h>\n#include <zlib.h>\n"));
    matches!(given, Some(Ok(()))) && probe.wait().is_ok_and(|status| status.success())
}

fn run(command: &mut Command) {
    match command.status() {
        Ok(status) if status.success() => {}
        Ok(_) => panic!("{command:?} has failed"),
        Err(error) => panic!("{:?} does not start ({error}): run `bash tools/set_up`", command.get_program()),
    }
}
