//! Links the archive of the engine's exported calls, made by `tools/build unit_c`,
//! and, where their headers are found, the interval libraries that the benchmark
//! times beside the engine. `INTERVAL_LIBRARIES=none` leaves these out.

use std::env;
use std::path::{Path, PathBuf};
use std::process::{Command, Stdio};

/// An interval library: the flag that says it is there, its C file, headers one
/// of which must be found, and the lists of libraries to link, the first that
/// suffices.
struct Library {
    flag: &'static str,
    source: &'static str,
    headers: &'static [&'static str],
    links: &'static [&'static [&'static str]],
}

const LIBRARIES: [Library; 2] = [
    Library {
        flag: "has_arb",
        source: "bench/interval_arb.c",
        headers: &["arb.h", "flint/arb.h"],
        links: &[
            &["-lflint-arb", "-lflint"],
            &["-larb", "-lflint"],
            &["-lflint"],
        ],
    },
    Library {
        flag: "has_mpfi",
        source: "bench/interval_mpfi.c",
        headers: &["mpfi.h"],
        links: &[&["-lmpfi", "-lmpfr"]],
    },
];

fn succeeds(command: &mut Command) -> bool {
    let quiet = command.stdout(Stdio::null()).stderr(Stdio::null());
    quiet.status().is_ok_and(|status| status.success())
}

fn header_is_found(header: &str, folder: &Path) -> bool {
    let file = folder.join("header.c");
    std::fs::write(&file, format!("#include <{header}>\n")).is_ok()
        && succeeds(Command::new("cc").arg("-E").arg(file))
}

/// The library's C file compiled, and the list that links it.
fn compiled(library: &Library, folder: &Path) -> Option<(PathBuf, &'static [&'static str])> {
    let object = folder.join(library.flag).with_extension("o");
    let mut compile = Command::new("cc");
    compile.args(["-std=c11", "-O2", "-fPIC", "-c", library.source, "-o"]);
    if !succeeds(compile.arg(&object)) {
        return None;
    }
    let linked = |links: &&&[&str]| {
        let mut link = Command::new("cc");
        link.args(["-shared", "-Wl,--no-undefined", "-o"]);
        succeeds(link.arg(folder.join("linked")).arg(&object).args(**links))
    };
    let links = library.links.iter().find(linked)?;
    Some((object, links))
}

fn link_library(library: &Library, folder: &Path) {
    if !library
        .headers
        .iter()
        .any(|name| header_is_found(name, folder))
    {
        return;
    }
    let Some((object, links)) = compiled(library, folder) else {
        println!("cargo:warning={} does not compile or link", library.source);
        return;
    };
    println!("cargo:rustc-cfg={}", library.flag);
    println!("cargo:rustc-link-arg-bin=benchmark={}", object.display());
    for link in links {
        println!("cargo:rustc-link-arg-bin=benchmark={link}");
    }
}

/// The archive, from the root of the project.
const ARCHIVE: &str = "target/staticlib/libunit.a";

/// Links the archive. Where it is missing, the build ends with the command that
/// makes it, before a linker tells of it in its own words.
fn link_archive() {
    let root = Path::new(env!("CARGO_MANIFEST_DIR")).join("../..");
    let archive = root.join(ARCHIVE);
    println!("cargo:rerun-if-changed={}", archive.display());
    if !archive.is_file() {
        println!("cargo::error={ARCHIVE} is missing; this command makes it: tools/build unit_c");
        return;
    }
    let folder = archive.parent().expect("the archive's folder");
    println!("cargo:rustc-link-search=native={}", folder.display());
    println!("cargo:rustc-link-lib=static=unit");
}

fn main() {
    link_archive();
    println!("cargo:rerun-if-changed=bench");
    println!("cargo:rerun-if-env-changed=INTERVAL_LIBRARIES");
    let folder = PathBuf::from(env::var_os("OUT_DIR").expect("cargo names a folder"));
    let left_out = env::var("INTERVAL_LIBRARIES").is_ok_and(|wish| wish == "none");
    for library in &LIBRARIES {
        println!("cargo:rustc-check-cfg=cfg({})", library.flag);
        if !left_out {
            link_library(library, &folder);
        }
    }
}
