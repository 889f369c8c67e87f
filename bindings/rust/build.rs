//! Builds the library from dist/ with the C compiler into an archive, which the crate is linked with. No other crate is needed for that.
//!
//! The compiler is CC_TARGET of the environment, as CC_aarch64_unknown_linux_gnu. Else it is CC if the target is the host, and TARGET_CC if
//! it is another. Else it is the first one that is here. AR is found likewise.

use std::env;
use std::ffi::OsString;
use std::path::{Path, PathBuf};
use std::process::{exit, Command};

/// Targets of Rust, the prefix of Debian's tools for each, and what a compiler is told besides.
const CROSS: [(&str, &str, &[&str]); 13] = [
    ("x86_64-unknown-linux-gnu", "x86_64-linux-gnu-", &[]),
    ("x86_64-unknown-linux-musl", "x86_64-linux-gnu-", &[]),
    ("aarch64-unknown-linux-gnu", "aarch64-linux-gnu-", &[]),
    ("aarch64-unknown-linux-musl", "aarch64-linux-gnu-", &[]),
    ("arm-unknown-linux-gnueabihf", "arm-linux-gnueabihf-", &[]),
    ("arm-unknown-linux-musleabihf", "arm-linux-gnueabihf-", &[]),
    ("armv7-unknown-linux-gnueabihf", "arm-linux-gnueabihf-", &[]),
    ("armv7-unknown-linux-musleabihf", "arm-linux-gnueabihf-", &[]),
    ("riscv64gc-unknown-linux-gnu", "riscv64-linux-gnu-", &[]),
    ("riscv64gc-unknown-linux-musl", "riscv64-linux-gnu-", &[]),
    ("thumbv6m-none-eabi", "arm-none-eabi-", &["-mthumb", "-march=armv6s-m"]),
    ("thumbv7m-none-eabi", "arm-none-eabi-", &["-mthumb", "-march=armv7-m"]),
    ("thumbv7em-none-eabi", "arm-none-eabi-", &["-mthumb", "-march=armv7e-m"]),
];

/// Systems whose objects are not ELF.
const WITHOUT_ELF: [&str; 8] = ["windows", "cygwin", "uefi", "macos", "ios", "tvos", "watchos", "visionos"];

/// How the name of a target begins that is a board without a system: a Cortex-M.
const BOARDS: [&str; 4] = ["thumbv6m", "thumbv7m", "thumbv7em", "thumbv8m"];

/// Ends the build, and says what to do.
fn fail(why: &str) -> ! {
    eprintln!("addercoil: {}", why);
    exit(1)
}

/// A variable of the environment, which the user may set; an empty one counts for nothing.
fn variable(name: &str) -> Option<String> {
    println!("cargo:rerun-if-env-changed={}", name);
    env::var_os(name).map(|value| value.to_string_lossy().into_owned()).filter(|value| !value.trim().is_empty())
}

/// A variable that cargo always sets.
fn given(name: &str) -> OsString {
    env::var_os(name).unwrap_or_else(|| fail(&format!("{} is not set: cargo runs this program", name)))
}

/// .. and that is text.
fn given_text(name: &str) -> String {
    given(name).into_string().unwrap_or_else(|found| fail(&format!("{} is not UTF-8, which cargo cannot read: {:?}", name, found)))
}

/// Why there is no assembler for a target, whatever compiler is here.
fn refusal(target: &str) -> Option<String> {
    let said = |what: &str| given_text(&format!("CARGO_CFG_TARGET_{}", what));
    let (system, processor) = (said("OS"), said("ARCH"));
    if processor.starts_with("wasm") {
        return Some("for WebAssembly take dist/addercoil.wasm: there is no archive that this crate can be linked with".to_string());
    }
    if WITHOUT_ELF.contains(&system.as_str()) {
        return Some(format!("the library is for systems with ELF: there is no assembler for {}", target));
    }
    let is_board = BOARDS.iter().any(|start| target.starts_with(start));
    let in_registers = target.ends_with("hf");
    if is_board && in_registers {
        return Some("the library passes doubles in software on a board: take the target that ends in eabi".to_string());
    }
    let is_there = match processor.as_str() {
        "x86_64" | "aarch64" | "riscv64" => said("POINTER_WIDTH") == "64",
        "arm" => is_board || in_registers,
        _ => false,
    };
    (!is_there || said("ENDIAN") != "little").then(|| format!("there is no assembler for {}: dist/README.md names the targets", target))
}

/// Whether a command is here.
fn is_here(command: &str) -> bool {
    Command::new(command).arg("--version").output().map_or(false, |done| done.status.success())
}

/// The name of a target in a variable that every shell can export.
fn underscored(target: &str) -> String {
    target.replace(['-', '.'], "_")
}

/// The words of a command, as CC or AR names it for this target. The plain names are for the host alone.
fn chosen(name: &str, target: &str, is_host: bool) -> Option<Vec<String>> {
    let plain = if is_host { name.to_string() } else { format!("TARGET_{}", name) };
    let names = [format!("{}_{}", name, target), format!("{}_{}", name, underscored(target)), plain];
    let found = names.iter().find_map(|one| variable(one))?;
    Some(found.split_whitespace().map(str::to_string).collect())
}

/// Whether a command is a clang that must be told its target.
fn is_clang_without_target(words: &[String]) -> bool {
    let is_clang = |word: &String| Path::new(word).file_name().map_or(false, |name| name.to_string_lossy().contains("clang"));
    words.iter().any(is_clang) && !words.iter().any(|word| word.starts_with("--target") || word == "-target")
}

/// The C compiler, and ar.
fn tools(target: &str, host: &str) -> (Vec<String>, Vec<String>) {
    let is_host = target == host;
    let row = CROSS.iter().find(|(name, _, _)| *name == target);
    let own: Vec<String> = if is_host {
        ["cc", "gcc", "clang"].iter().map(|one| one.to_string()).collect()
    } else {
        row.iter().map(|(_, prefix, _)| format!("{}gcc", prefix)).collect()
    };
    let found = || own.into_iter().find(|one| is_here(one)).map(|one| vec![one]);
    let none = || fail(&format!("there is no C compiler for {}: install gcc, or name one in CC_{}", target, underscored(target)));
    let mut compiler = chosen("CC", target, is_host).or_else(found).unwrap_or_else(none);
    if !is_host && is_clang_without_target(&compiler) {
        compiler.push(format!("--target={}", target.replace("riscv64gc", "riscv64")));
    }
    compiler.extend(row.iter().flat_map(|(_, _, words)| words.iter()).map(|word| word.to_string()));
    let archiver = chosen("AR", target, is_host).unwrap_or_else(|| {
        let beside = compiler[0].strip_suffix("-gcc").map(|start| format!("{}-ar", start));
        let of_target = row.map(|(_, prefix, _)| format!("{}ar", prefix));
        let named = [beside, of_target, (!is_host).then(|| "llvm-ar".to_string())];
        vec![named.into_iter().flatten().find(|one| is_here(one)).unwrap_or_else(|| "ar".to_string())]
    });
    (compiler, archiver)
}

/// Runs a command to its end.
fn run(words: &[String], more: &[&Path]) {
    match Command::new(&words[0]).args(&words[1..]).args(more).output() {
        Ok(done) if done.status.success() => {}
        Ok(done) => fail(&format!("{} ended with {}:\n{}", words[0], done.status, String::from_utf8_lossy(&done.stderr))),
        Err(why) => fail(&format!("{} cannot be run ({}): install gcc, or name a C compiler in CC and ar in AR", words[0], why)),
    }
}

/// The assembler of the library: the .S files of dist/.
fn sources(dist: &Path) -> Vec<PathBuf> {
    let listed = dist.read_dir().into_iter().flatten().flatten().map(|entry| entry.path());
    let mut found: Vec<PathBuf> = listed.filter(|path| path.extension().map_or(false, |one| one == "S")).collect();
    if found.is_empty() {
        fail(&format!(
            "there is no assembler in {}: take the whole repository, in which dist/ is, or the package of the crate",
            dist.display()
        ));
    }
    found.sort();
    found
}

fn main() {
    let (target, host) = (given_text("TARGET"), given_text("HOST"));
    if let Some(why) = refusal(&target) {
        fail(&why);
    }
    let (dist, out) = (Path::new(&given("CARGO_MANIFEST_DIR")).join("dist"), PathBuf::from(given_text("OUT_DIR")));
    println!("cargo:rerun-if-changed=dist");
    let found = sources(&dist);
    let (compiler, mut archiver) = tools(&target, &host);
    let mut objects = Vec::new();
    for source in &found {
        let object = out.join(source.file_stem().unwrap_or_default()).with_extension("o");
        run(&compiler, &[Path::new("-fPIC"), Path::new("-c"), source, Path::new("-o"), &object]);
        objects.push(object);
    }
    let archive = out.join("libaddercoil.a");
    let _ = std::fs::remove_file(&archive); // else what an older dist/ had would stay in it
    archiver.push("crs".to_string());
    run(&archiver, &[&[archive.as_path()][..], &objects.iter().map(PathBuf::as_path).collect::<Vec<_>>()].concat());
    println!("cargo:rustc-link-search=native={}", out.display());
    println!("cargo:rustc-link-lib=static=addercoil");
}
