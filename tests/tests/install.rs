//! `make install` in a folder of its own: the C example of docs/USE.md is compiled and linked by what pkg-config says, by
//! every compiler that is there, and prints what the page says; `make uninstall` leaves no file. `make dist` packs the same.

use std::path::{Path, PathBuf};
use std::process::{Command, Output};
use std::{env, fs};

fn root() -> PathBuf {
    fs::canonicalize(Path::new(env!("CARGO_MANIFEST_DIR")).join("..")).expect("the tests lie in the repository")
}

/// The indented block of docs/USE.md that begins with this line.
fn block(first: &str) -> String {
    let text = fs::read_to_string(root().join("docs/USE.md")).expect("docs/USE.md can be read");
    let from = text.find(&format!("    {first}\n")).unwrap_or_else(|| panic!("docs/USE.md has no block {first}"));
    let lines = text[from..].lines().take_while(|line| line.is_empty() || line.starts_with("    "));
    let lines: Vec<&str> = lines.map(|line| line.strip_prefix("    ").unwrap_or("")).collect();
    format!("{}\n", lines.join("\n").trim_end())
}

fn make(goal: &str, prefix: &Path) {
    let mut command = Command::new("make");
    for variable in ["MAKEFLAGS", "MFLAGS", "MAKELEVEL"] {
        command.env_remove(variable);
    }
    let output = command.current_dir(root()).arg(goal).arg(format!("PREFIX={}", prefix.display())).output();
    assert_done(&output.expect("make runs"), goal);
}

#[track_caller]
fn assert_done(output: &Output, what: &str) {
    assert!(output.status.success(), "{what}: {}", String::from_utf8_lossy(&output.stderr));
}

/// The words that pkg-config prints of the installed library. Where there is no pkg-config, nothing is tested.
fn pkg_config(prefix: &Path, arguments: &[&str]) -> Vec<String> {
    let output = Command::new("pkg-config")
        .args(arguments)
        .arg("osek")
        .env("PKG_CONFIG_PATH", prefix.join("lib/pkgconfig"))
        .output()
        .expect("pkg-config runs");
    assert_done(&output, "pkg-config");
    String::from_utf8_lossy(&output.stdout).split_whitespace().map(String::from).collect()
}

fn files(folder: &Path) -> Vec<PathBuf> {
    let entries = fs::read_dir(folder).expect("a folder can be read").map(|entry| entry.expect("an entry").path());
    entries.flat_map(|path| if path.is_dir() && !path.is_symlink() { files(&path) } else { vec![path] }).collect()
}

fn is_there(program: &str) -> bool {
    Command::new(program).arg("--version").output().is_ok_and(|output| output.status.success())
}

/// The tool runs, its man page is one, and its completion knows its commands.
#[track_caller]
fn assert_tool(prefix: &Path, version: &str) {
    let tool = Command::new(prefix.join("bin/osek")).arg("--version").output().expect("the tool runs");
    assert_eq!(String::from_utf8_lossy(&tool.stdout), format!("osek {version}\n"));
    let page = prefix.join("share/man/man1/osek.1");
    let text = fs::read_to_string(&page).expect("the man page can be read");
    let overview = Command::new(prefix.join("bin/osek")).arg("--help").output().expect("the tool runs");
    let overview = String::from_utf8_lossy(&overview.stdout).into_owned();
    let rows = overview.lines().skip_while(|line| !line.starts_with("  ")).take_while(|line| line.starts_with("  "));
    let commands: Vec<&str> = rows.filter_map(|line| line.split_whitespace().next()).collect();
    assert!(commands.len() >= 10, "{overview}");
    for command in &commands {
        assert!(text.contains(&format!(".SS {command}\n")), "{command} is not in osek.1");
    }
    if is_there("groff") {
        let output = Command::new("groff").args(["-man", "-ww", "-Tutf8"]).arg(&page).output().expect("groff runs");
        assert_eq!(String::from_utf8_lossy(&output.stderr), "");
    }
    let completion = prefix.join("share/bash-completion/completions/osek");
    let script = format!(
        "source '{}'; COMP_WORDS=(osek ''); COMP_CWORD=1; _osek; echo \"${{COMPREPLY[@]}}\"; \
         COMP_WORDS=(osek compare --k); COMP_CWORD=2; _osek; echo \"${{COMPREPLY[@]}}\"",
        completion.display()
    );
    let output = Command::new("bash").args(["-c", &script]).output().expect("bash runs");
    let said = String::from_utf8_lossy(&output.stdout).into_owned();
    let (first, second) = said.split_once('\n').expect("two lines");
    assert!(commands.iter().all(|command| first.split(' ').any(|word| word == *command)), "{first}");
    assert_eq!(second, "--keep-going\n");
}

/// The package is imported from this folder, with this library.
#[track_caller]
fn assert_python(folder: &Path, library: &Path, version: &str) {
    let script =
        "import osek; print(osek.__version__, osek.run(bytes([1, 1, 0, 2, 1, 0, 0]), bytes([6])).answers[0].level)";
    let output = Command::new("python3")
        .args(["-B", "-c", script])
        .env("PYTHONPATH", folder)
        .env("OSEK_LIBRARY", library)
        .current_dir(env::temp_dir())
        .output();
    let Ok(output) = output else { return };
    assert_done(&output, "python3");
    assert_eq!(String::from_utf8_lossy(&output.stdout), format!("{version} 2\n"));
}

/// `make dist` packs what is installed, the pages, and what is known of the gate; without a gate it says so or stops.
#[test]
fn a_package_is_used_without_kit_and_clone() {
    let stops = Command::new("scripts/dist").args(["0", "", "README.md"]).current_dir(root()).env("HOME", "/").output();
    let gated = fs::read_to_string(root().join("build/GATE")).is_ok();
    let stops = stops.expect("the script runs");
    if !gated {
        let said = String::from_utf8_lossy(&stops.stderr);
        assert!(!stops.status.success() && said.starts_with("no gate has passed on this commit"), "{said}");
    }
    let mut command = Command::new("make");
    for variable in ["MAKEFLAGS", "MFLAGS", "MAKELEVEL"] {
        command.env_remove(variable);
    }
    assert_done(&command.current_dir(root()).args(["dist", "UNGATED=1"]).output().expect("make runs"), "dist");
    let folder = env::temp_dir().join(format!("osek-dist-{}", std::process::id()));
    fs::create_dir(&folder).expect("a temporary folder can be made");
    let packed = files(&root().join("build/dist"));
    let tarball = packed.iter().find(|path| path.to_string_lossy().ends_with(".tar.gz")).expect("there is a tarball");
    let output = Command::new("tar").arg("-xzf").arg(tarball).arg("-C").arg(&folder).output().expect("tar runs");
    assert_done(&output, "tar");
    let name = tarball.file_name().map(|name| name.to_string_lossy().replace(".tar.gz", "")).expect("it has a name");
    let prefix = folder.join(&name);
    let version = name.strip_prefix("osek-").expect("the name has a version");
    assert_tool(&prefix, version);
    assert_python(&prefix.join("lib/python3/dist-packages"), &prefix.join("lib/libosek.so"), version);
    let gate = fs::read_to_string(prefix.join("share/doc/osek/GATE")).expect("it says which gate it passed");
    assert!(gate.contains("\ncommit "), "{gate}");
    for page in ["README.md", "docs/RULES.md", "docs/TEXT.md", "docs/USE.md"] {
        assert!(prefix.join("share/doc/osek").join(page).is_file(), "{page}");
    }
    if is_there("pkg-config") {
        let words = pkg_config(&prefix, &["--cflags"]).concat();
        let include = words.strip_prefix("-I").expect("it says where the header is");
        assert!(Path::new(include).join("osek.h").is_file(), "{words}");
    }
    // The Debian package has the same files under /usr.
    if let Some(package) = packed.iter().find(|path| path.extension().is_some_and(|ending| ending == "deb")) {
        let tree = folder.join("deb");
        let output = Command::new("dpkg-deb").arg("-x").arg(package).arg(&tree).output().expect("dpkg-deb runs");
        assert_done(&output, "dpkg-deb");
        let inside = |root: &Path| {
            let mut all: Vec<PathBuf> =
                files(root).iter().map(|file| file.strip_prefix(root).expect("it is inside").to_path_buf()).collect();
            all.sort();
            all
        };
        assert_eq!(inside(&tree.join("usr")), inside(&prefix));
    }
    fs::remove_dir_all(&folder).expect("the folder can be removed");
}

#[test]
fn the_example_is_built_from_an_installed_library() {
    if !is_there("pkg-config") {
        return;
    }
    let prefix = env::temp_dir().join(format!("osek-install-{}", std::process::id()));
    fs::create_dir(&prefix).expect("a temporary folder can be made");
    make("install", &prefix);

    let example = prefix.join("example.c");
    fs::write(&example, block("#include <osek.h>")).expect("a file can be written");
    let expected = block("0: body 0 runs at level 2");
    let run = |program: &Path, compiler: &str| {
        let output = Command::new(program).env("LD_LIBRARY_PATH", prefix.join("lib")).output().expect("it runs");
        assert_done(&output, compiler);
        assert_eq!(String::from_utf8_lossy(&output.stdout), expected, "{compiler}");
    };
    let words = pkg_config(&prefix, &["--cflags", "--libs"]);
    let program = prefix.join("example");
    let mut built = 0;
    for (compiler, language) in
        [("gcc", ["-std=c99", "-xc"]), ("clang", ["-std=c99", "-xc"]), ("g++", ["-std=c++98", "-xc++"])]
    {
        if !is_there(compiler) {
            continue;
        }
        // Once with the shared library, as pkg-config has it, and once with the archive.
        let archive: Vec<String> =
            words.iter().map(|word| if word == "-losek" { "-l:libosek.a".into() } else { word.clone() }).collect();
        for words in [&words, &archive] {
            let output = Command::new(compiler)
                .args(["-Wall", "-Wextra", "-Wpedantic", "-Werror", "-o"])
                .arg(&program)
                .args(language)
                .arg(&example)
                .arg("-xnone")
                .args(words)
                .output()
                .expect("the compiler runs");
            assert_done(&output, compiler);
            run(&program, compiler);
        }
        built += 1;
    }
    assert!(built > 0, "no compiler was found");

    let version = pkg_config(&prefix, &["--modversion"]).concat();
    let host = Command::new(prefix.join("bin/osek_host")).arg("--version").output().expect("the host runs");
    assert_eq!(String::from_utf8_lossy(&host.stdout), format!("osek_host {version}\n"));
    assert!(prefix.join("share/man/man1/osek_host.1").is_file());
    assert_tool(&prefix, &version);
    assert_python(&prefix.join("lib/python3/dist-packages"), &prefix.join("lib/libosek.so"), &version);

    fs::remove_file(&example).and(fs::remove_file(&program)).expect("files can be removed");
    make("uninstall", &prefix);
    assert_eq!(files(&prefix), Vec::<PathBuf>::new());
    fs::remove_dir_all(&prefix).expect("the folder can be removed");
}
