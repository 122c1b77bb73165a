//! `host/install`: what it puts where, programs in C and Python on it, and when it writes nothing.
#![cfg(feature = "proved")]

mod common;

use common::{host, scratch};
use std::fs;
use std::os::unix::fs::symlink;
use std::path::{Path, PathBuf};
use std::process::{Command, Output};

/// What it installs, beside the shared object with the interface's number.
const FILES: [&str; 4] = [
    "include/mavunilai.h",
    "lib/libmavunilai.a",
    "lib/libmavunilai.so",
    "lib/pkgconfig/mavunilai.pc",
];

/// What it installs besides, unless the library alone is asked for.
const COMMAND: [&str; 3] =
    ["bin/mavunilai", "share/man/man1/mavunilai.1", "share/bash-completion/completions/mavunilai"];

/// A script of that name with the library of this build.
fn script(script: &Path, words: &[&str]) -> Command {
    let library = Path::new(env!("MAVUNILAI_ARCHIVE")).parent().unwrap();
    let mut command = Command::new(script);
    command.args(words).env("MAVUNILAI_LIB", library);
    command
}

/// What such a script says, where the library alone is asked for.
fn install(named: &Path, words: &[&str]) -> Output {
    script(named, &[&["--library"], words].concat()).output().unwrap()
}

/// Whether there is a C compiler; the gate sees that there is.
fn has_compiler() -> bool {
    Command::new("cc").arg("--version").output().is_ok()
}

/// A folder that is not there.
fn fresh(name: &str) -> PathBuf {
    let folder = scratch(name);
    if folder.exists() {
        fs::remove_dir_all(&folder).unwrap();
    }
    folder
}

/// The flags that pkg-config gives, or where it is missing those of the file's lines.
fn flags(prefix: &Path) -> Vec<String> {
    let file = prefix.join("lib/pkgconfig/mavunilai.pc");
    let told = Command::new("pkg-config").args(["--cflags", "--libs"]).arg(&file).output();
    let text = match told {
        Ok(told) => String::from_utf8(told.stdout).unwrap(),
        Err(_) => {
            let text = fs::read_to_string(&file).unwrap();
            let lines = text.lines().filter_map(|line| {
                line.strip_prefix("Cflags: ").or_else(|| line.strip_prefix("Libs: "))
            });
            let flags = lines.collect::<Vec<_>>().join(" ").replace('"', "");
            let folder = |name: &str| prefix.join(name).to_str().unwrap().to_string();
            flags.replace("${includedir}", &folder("include")).replace("${libdir}", &folder("lib"))
        }
    };
    text.split_whitespace().map(str::to_string).collect()
}

/// What a program prints; it must end well.
fn printed(command: &mut Command) -> String {
    let ended = command.output().unwrap();
    assert!(ended.status.success(), "{}", String::from_utf8_lossy(&ended.stderr));
    String::from_utf8(ended.stdout).unwrap()
}

/// The first and the last line.
fn ends(text: &str) -> [Option<&str>; 2] {
    [text.lines().next(), text.lines().next_back()]
}

#[test]
fn programs_run_on_what_is_installed() {
    if !has_compiler() {
        return eprintln!("not tried, no C compiler");
    }
    let prefix = fresh("installed");
    let told = install(&host("install"), &[prefix.to_str().unwrap()]);
    assert!(told.status.success(), "{}", String::from_utf8_lossy(&told.stderr));
    let told = String::from_utf8(told.stdout).unwrap();
    let prefix = prefix.canonicalize().unwrap();
    for file in FILES {
        let file = prefix.join(file);
        assert!(file.is_file() && told.lines().any(|line| Path::new(line) == file), "{told}");
    }
    let lines = [Some("blank vote of 0: fresh"), Some("current height 2, settled height 0")];

    let program = prefix.join("first_call");
    let command = &mut Command::new("cc");
    command.arg(host("example/first_call.c")).args(flags(&prefix)).arg("-o").arg(&program);
    assert_eq!(printed(command), "");
    assert_eq!(ends(&printed(&mut Command::new(&program))), lines);

    if Command::new("python3").arg("--version").output().is_err() {
        return eprintln!("not tried, no python3");
    }
    let command = &mut Command::new("python3");
    command.arg(host("example/first_call.py")).arg(prefix.join("lib/libmavunilai.so"));
    assert_eq!(ends(&printed(command)), lines);
}

#[test]
fn the_shared_object_is_found_by_its_number() {
    if !has_compiler() {
        return eprintln!("not tried, no C compiler");
    }
    let prefix = fresh("shared");
    assert!(install(&host("install"), &[prefix.to_str().unwrap()]).status.success());
    let (program, library) = (prefix.join("first_call"), prefix.join("lib"));
    let command = &mut Command::new("cc");
    command.arg("-I").arg(prefix.join("include")).arg(host("example/first_call.c"));
    command.arg("-L").arg(&library).args(["-lmavunilai", "-o"]).arg(&program);
    assert_eq!(printed(command), "");
    let run = || Command::new(&program).env("LD_LIBRARY_PATH", &library).output().unwrap().status;
    assert!(run().success());
    let number = mavunilai::INTERFACE;
    let [this, next] =
        [number, number + 1].map(|number| library.join(format!("libmavunilai.so.{number}")));
    fs::rename(this, next).unwrap();
    assert!(!run().success());
}

/// The version of the packages is that of the pkg-config file and of the shared object's name.
#[test]
fn the_version_is_told() {
    if !has_compiler() {
        return eprintln!("not tried, no C compiler");
    }
    let prefix = fresh("version");
    assert!(install(&host("install"), &[prefix.to_str().unwrap()]).status.success());
    let (version, number) = (env!("CARGO_PKG_VERSION"), mavunilai::INTERFACE);
    let package = fs::read_to_string(prefix.join("lib/pkgconfig/mavunilai.pc")).unwrap();
    assert!(package.lines().any(|line| line == format!("Version: {version}")), "{package}");
    let named = |name: &str| fs::read_link(prefix.join("lib").join(name)).unwrap();
    assert_eq!(named("libmavunilai.so"), Path::new(&format!("libmavunilai.so.{number}")));
    let versioned = format!("libmavunilai.so.{version}");
    assert_eq!(named(&format!("libmavunilai.so.{number}")), Path::new(&versioned));
    assert!(prefix.join("lib").join(versioned).metadata().unwrap().is_file());
}

/// The command has the proved replica, and its manual page and completions are those that it prints.
#[test]
fn the_command_is_installed() {
    if !has_compiler() {
        return eprintln!("not tried, no C compiler");
    }
    let prefix = fresh("command");
    let command = &mut script(&host("install"), &[prefix.to_str().unwrap()]);
    command.env("CARGO_TARGET_DIR", scratch("command_build"));
    let told = printed(command.env("CARGO_PROFILE_RELEASE_OPT_LEVEL", "0"));
    let [command, page, completions] = COMMAND.map(|file| prefix.join(file));
    assert_eq!(told.lines().count(), FILES.len() + 2 + COMMAND.len(), "{told}");
    let says = |words: &[&str]| printed(Command::new(&command).args(words));
    let version = says(&["--version"]);
    assert!(version.contains(env!("CARGO_PKG_VERSION")) && version.contains("the proved replica"));
    assert_eq!(fs::read_to_string(page).unwrap(), says(&["help", "--man"]));
    assert_eq!(fs::read_to_string(completions).unwrap(), says(&["help", "--bash"]));
}

/// Without cargo the library can be installed alone, and what is needed is said.
#[test]
fn cargo_is_asked_for() {
    if !has_compiler() {
        return eprintln!("not tried, no C compiler");
    }
    let prefix = fresh("no_cargo");
    let run = |words: &[&str]| {
        let command = &mut script(&host("install"), words);
        let command = command.arg(&prefix).env("HOME", "/nowhere").env("CARGO_HOME", "/nowhere");
        command.env("PATH", "/usr/bin:/bin").output().unwrap()
    };
    if Path::new("/usr/bin/cargo").exists() {
        return eprintln!("not tried, the system has its own cargo");
    }
    let told = run(&[]);
    assert_eq!(told.status.code(), Some(2));
    assert!(String::from_utf8(told.stderr).unwrap().contains("no cargo"));
    assert!(!prefix.exists());
    assert!(run(&["--library"]).status.success());
    assert!(prefix.join(FILES[0]).exists() && !prefix.join(COMMAND[0]).exists());
}

#[test]
fn nothing_is_overwritten_unasked() {
    if !has_compiler() {
        return eprintln!("not tried, no C compiler");
    }
    let prefix = fresh("there");
    let [header, .., package] = FILES.map(|file| prefix.join(file));
    fs::create_dir_all(package.parent().unwrap()).unwrap();
    fs::write(&package, "mine").unwrap();
    let words = [prefix.to_str().unwrap(), "--force"];
    let told = install(&host("install"), &words[..1]);
    assert_eq!(told.status.code(), Some(1));
    assert!(String::from_utf8(told.stderr).unwrap().contains("mavunilai.pc is there already"));
    assert!(!header.exists() && fs::read(&package).unwrap() == b"mine");
    assert!(install(&host("install"), &words).status.success());
    assert!(header.exists() && fs::read(&package).unwrap() != b"mine");
}

#[test]
fn a_library_of_another_interface_is_not_installed() {
    if !has_compiler() {
        return eprintln!("not tried, no C compiler");
    }
    let (copy, prefix) = (fresh("next"), fresh("not_there"));
    fs::create_dir_all(copy.join("include")).unwrap();
    // Links: a script that this process had just written could not be run while a child of another test, begun
    // meanwhile, still had it open for writing.
    for file in ["install", "Cargo.toml"] {
        symlink(host(file), copy.join(file)).unwrap();
    }
    let text = fs::read_to_string(host("include/mavunilai.h")).unwrap();
    let number = |number| format!("#define MAVUNILAI_INTERFACE {number}u");
    let text = text.replace(&number(mavunilai::INTERFACE), &number(mavunilai::INTERFACE + 1));
    fs::write(copy.join("include/mavunilai.h"), text).unwrap();
    let told = install(&copy.join("install"), &[prefix.to_str().unwrap()]);
    assert_eq!(told.status.code(), Some(1));
    assert!(String::from_utf8(told.stderr).unwrap().contains("not of the header's interface"));
    assert!(!prefix.exists());
}

/// What the build script of the crate tells cargo when MAVUNILAI_LIB names a folder.
fn told_to_cargo(script: &Path, folder: &Path) -> String {
    let command = &mut Command::new(script);
    command.env("CARGO_FEATURE_PROVED", "1").env("MAVUNILAI_LIB", folder);
    printed(command)
}

/// MAVUNILAI_LIB may name the folder that was installed to, or its `lib`: for cargo, and to install once more.
#[test]
fn what_is_installed_is_found() {
    if !has_compiler() {
        return eprintln!("not tried, no C compiler");
    }
    let (prefix, script) = (fresh("found"), scratch("build_script"));
    assert!(install(&host("install"), &[prefix.to_str().unwrap()]).status.success());
    let command = &mut Command::new(option_env!("RUSTC").unwrap_or("rustc"));
    command.env("CARGO_MANIFEST_DIR", host("mavunilai")).arg("--edition=2021");
    command.arg(host("mavunilai/build.rs")).arg("-o").arg(&script);
    assert_eq!(printed(command), "");
    let library = prefix.join("lib");
    for folder in [&prefix, &library] {
        let told = told_to_cargo(&script, folder);
        let search = format!("cargo::rustc-link-search=native={}", library.display());
        assert!(told.lines().any(|line| line == search), "{told}");
        assert!(told.contains("cargo::rustc-link-lib=static=mavunilai"), "{told}");
        let again = fresh("found_again");
        let command = &mut Command::new(host("install"));
        printed(command.arg("--library").arg(&again).env("MAVUNILAI_LIB", folder));
        assert!(again.join("lib/libmavunilai.a").is_file());
    }
    assert!(told_to_cargo(&script, &fresh("nothing")).contains("cargo::error=the proved replica"));
    let built = Path::new(env!("MAVUNILAI_ARCHIVE")).parent().unwrap();
    assert!(told_to_cargo(&script, built).contains("cargo::rustc-link-lib=static="));
}

#[test]
fn usage_is_told() {
    let code = |words: &[&str]| script(&host("install"), words).output().unwrap().status.code();
    assert_eq!(code(&["--help"]), Some(0));
    assert_eq!(code(&[]), Some(2));
    assert_eq!(code(&["one", "two"]), Some(2));
    assert_eq!(code(&["--wrong", "one"]), Some(2));
    let missing =
        Command::new(host("install")).arg(fresh("none")).env("MAVUNILAI_LIB", "/nowhere").output();
    let missing = missing.unwrap();
    assert_eq!(missing.status.code(), Some(2));
    assert!(String::from_utf8(missing.stderr).unwrap().contains("host/library"));
}
