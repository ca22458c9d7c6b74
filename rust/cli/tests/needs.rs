//! `./demo` asks before it installs anything, unless nobody is there to ask: what it does that by is `rust/needs.sh`.

#[path = "../../tests/common/mod.rs"]
mod common;

use common::{repository, Folder};
use std::{
    env, fs,
    io::Write,
    os::unix::fs::PermissionsExt,
    process::{Command, Stdio},
};

/// What is said, and what the installer is asked for, where a package is missing; `answer` is what somebody at a terminal types.
fn installed(test: &str, answer: Option<&str>) -> Option<(String, String)> {
    let folder = Folder::new(test);
    let asked = folder.join("asked");
    // Nothing is there, and what installs only notes what it was asked for.
    for (name, does) in [
        ("dpkg", "exit 1"),
        ("apt-get", &format!("echo \"$*\" >>{}", asked.display())),
        ("sudo", "exec \"$@\""),
    ] {
        let path = folder.put(name, format!("#!/bin/sh\n{does}\n").as_bytes());
        fs::set_permissions(path, fs::Permissions::from_mode(0o755)).unwrap();
    }
    let script = format!(
        ". {}/rust/needs.sh; needs sh=dash some-package; echo status $?",
        repository().display()
    );
    let mut command = match answer {
        None => Command::new("bash"),
        // `script` is what makes a terminal.
        Some(_) => Command::new("script"),
    };
    match answer {
        None => command.args(["-c", &script]),
        Some(_) => command.args(["-qec", &format!("bash -c '{script}'"), "/dev/null"]),
    };
    let path = format!(
        "{}:{}",
        folder.join("").display(),
        env::var("PATH").unwrap()
    );
    let child = command
        .env("PATH", path)
        .stdin(Stdio::piped())
        .stdout(Stdio::piped())
        .stderr(Stdio::piped())
        .spawn();
    let mut child = child.ok()?;
    let mut stdin = child.stdin.take().unwrap();
    let _ = stdin.write_all(answer.unwrap_or_default().as_bytes());
    drop(stdin);
    let output = child.wait_with_output().unwrap();
    let said = [output.stdout, output.stderr].concat();
    Some((
        String::from_utf8(said).unwrap(),
        fs::read_to_string(asked).unwrap_or_default(),
    ))
}

#[test]
fn nobody_is_there() {
    let (said, asked) = installed("needs-nobody", None).unwrap();
    assert!(said.contains("installing some-package") && said.contains("status 0"));
    assert!(!said.contains('?'), "{said}");
    assert!(asked.contains("install -y -qq --no-install-recommends some-package"));
    assert!(!asked.contains("dash"));
}

#[test]
fn somebody_is_asked() {
    for (answer, yes) in [("y\n", true), ("n\n", false), ("\n", false)] {
        let (said, asked) = match installed("needs-somebody", Some(answer)) {
            Some(told) => told,
            None => return,
        };
        assert!(said.contains("some-package; install them? [y/N]"), "{said}");
        assert_eq!(asked.contains("some-package"), yes, "{said}");
        assert_eq!(said.contains("status 0"), yes, "{said}");
    }
}
