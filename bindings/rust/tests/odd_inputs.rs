//! Drives the real executable on what a build may hand it by mistake: a clear line each, in text and in JSON.

#![cfg(unix)]

mod command;

use command::{Folder, Ran, accepted, broken, finished, program, run};
use qaabireed::layout::LONGEST_FILE;
use qaabireed::{Node, Story};
use std::ffi::OsStr;
use std::fs::{File, Permissions, set_permissions, write};
use std::os::unix::ffi::OsStrExt;
use std::os::unix::fs::PermissionsExt;
use std::os::unix::process::CommandExt;
use std::path::Path;
use std::process::Command;

/// Holds all forms of the line for a path from which nothing can be had.
fn assert_unreadable(folder: &Folder, path: &str, reason: &str) {
    let text = format!("{path}: unreadable: {reason}\n");
    let json =
        format!("{{\"path\":\"{path}\",\"outcome\":\"unreadable\",\"text\":\"{reason}\"}}\n");
    folder.run(&[path]).assert(&text, 2);
    folder.run(&["--explain", path]).assert(&text, 2);
    folder.run(&["--json", path]).assert(&json, 2);
    folder.run(&["--json", "--explain", path]).assert(&json, 2);
}

/// Holds all forms of the line for a file that is refused, and its dump.
fn assert_refused(folder: &Folder, path: &str, length: &str, refusal: u8, reason: &str) {
    let text = format!("{path}: refused {refusal}: {reason}\n");
    let start = format!("{{\"path\":\"{path}\",\"outcome\":\"refused\",\"refusal\":{refusal},");
    folder.run(&[path]).assert(&text, 2);
    let json = format!("{start}\"text\":\"{reason}\"}}\n");
    folder.run(&["--json", path]).assert(&json, 2);
    let explained = folder.run(&["--explain", path]);
    assert!(explained.output.starts_with(&text), "{}", explained.output);
    let dump = folder.run(&["dump", path]).output;
    assert!(
        dump.starts_with(&format!("{path}: {length} bytes\n")),
        "{dump}"
    );
    assert!(dump.ends_with(&explained.output), "{dump}");
}

#[test]
fn a_missing_path() {
    let folder = Folder::new();
    let reason = "No such file or directory (os error 2)";
    assert_unreadable(&folder, "missing.inkb", reason);
    assert_unreadable(&folder, "missing/tale.inkb", reason);
    let dump = folder.run(&["dump", "missing.inkb"]);
    dump.assert(&format!("missing.inkb: unreadable: {reason}\n"), 2);
}

#[test]
fn an_empty_path() {
    let folder = Folder::new();
    let ran = folder.run(&[""]);
    ran.assert("'': unreadable: the path is empty\n", 2);
    let json = "{\"path\":\"\",\"outcome\":\"unreadable\",\"text\":\"the path is empty\"}\n";
    folder.run(&["--json", ""]).assert(json, 2);
}

#[test]
fn a_path_through_a_file() {
    let folder = Folder::with(&[("a.inkb", accepted())]);
    assert_unreadable(&folder, "a.inkb/b", "Not a directory (os error 20)");
}

#[test]
fn a_folder_without_stories() {
    let folder = Folder::with(&[("tales/notes.txt", vec![]), ("tales/a/b/hall.ink", vec![])]);
    let reason = "the folder has no story file (*.inkb)";
    assert_unreadable(&folder, "tales", reason);
    assert_unreadable(&folder, "tales/a", reason);
}

#[test]
fn an_empty_file_and_short_ones() {
    let folder = Folder::with(&[
        ("empty.inkb", vec![]),
        ("one.inkb", vec![0]),
        ("short.inkb", accepted()[1..].to_vec()),
    ]);
    let range = "a story file has 20 to 1048576";
    let reason = format!("the file is empty, {range} bytes");
    assert_refused(&folder, "empty.inkb", "0", 1, &reason);
    let reason = format!("the file has 1 byte, {range}");
    assert_refused(&folder, "one.inkb", "1", 1, &reason);
    let reason = format!("the file has 19 bytes, {range}");
    assert_refused(&folder, "short.inkb", "19", 1, &reason);
}

#[test]
fn files_over_a_mebibyte_are_not_said_to_have_a_length() {
    let folder = Folder::with(&[
        ("long.inkb", vec![0; LONGEST_FILE + 1]),
        ("longer.inkb", vec![0; 2 * LONGEST_FILE]),
    ]);
    let reason = "the file has over 1048576 bytes, a story file has 20 to 1048576";
    assert_refused(&folder, "long.inkb", "over 1048576", 1, reason);
    assert_refused(&folder, "longer.inkb", "over 1048576", 1, reason);
    let line = format!("long.inkb: refused 1: {reason}\n");
    folder.run(&["--explain", "long.inkb"]).assert(&line, 2);
}

#[test]
fn the_source_of_a_story() {
    let source = "VAR gold = 5\n-> hall\n== hall\n\tIt was dark in the café.\n-> END\n";
    let zeros = [source.as_bytes(), &[0; 20]].concat();
    let folder = Folder::with(&[("hall.ink", source.into()), ("zeros", zeros)]);
    let mark = "the last four bytes are not the mark 49 4B 01 00";
    let length = source.len().to_string();
    let reason = format!("{mark}; this is text, not an encoded story");
    assert_refused(&folder, "hall.ink", &length, 2, &reason);
    assert_refused(&folder, "zeros", &(source.len() + 20).to_string(), 2, mark);
}

#[test]
fn a_tree_of_many_files() {
    let name = |number: u32| {
        let (part, chapter) = (number / 100, number / 10 % 10);
        format!("tales/part_{part}/chapter_{chapter}/scene_{number:03}.inkb")
    };
    let names: Vec<String> = (0..500).map(name).collect();
    let file = |name: &str| match name.contains("scene_321") {
        true => broken("cellar"),
        false => accepted(),
    };
    let files: Vec<_> = names.iter().map(|name| (&name[..], file(name))).collect();
    let folder = Folder::with(&files);
    let ran = folder.run(&["tales"]);
    let written: Vec<&str> = ran.output.lines().collect();
    let paths = written.iter().map(|line| line.split(": ").next().unwrap());
    assert_eq!(paths.collect::<Vec<_>>(), names);
    assert_eq!((ran.errors.as_str(), ran.status), ("", 1));
    let line = format!(
        "{}: breach 2 at 0: Divert target not found: '-> cellar'\n",
        names[321]
    );
    folder.run(&["--quiet", "tales"]).assert(&line, 1);
    let json = folder.run(&["-qj", "tales"]);
    assert_eq!((json.output.lines().count(), json.status), (1, 1));
}

#[test]
fn a_pipe_in_a_folder_is_not_waited_for() {
    let folder = Folder::with(&[("tales/b.inkb", accepted())]);
    let made = Command::new("mkfifo")
        .arg(folder.0.join("tales/a.inkb"))
        .status();
    if !made.is_ok_and(|status| status.success()) {
        return; // this system makes no pipes
    }
    let lines = "\
tales/a.inkb: unreadable: a pipe, socket or device, not a file
tales/b.inkb: accepted
";
    folder.run(&["tales"]).assert(lines, 2);
}

/// Runs the program as a user to whom permissions apply; none where the system does not let it.
fn run_as_anyone(folder: &Folder, probe: &Path, arguments: &[&str]) -> Option<Ran> {
    const NOBODY: u32 = 65534;
    let mut command = program(&folder.0);
    command.args(arguments);
    if File::open(probe).is_ok() {
        command.uid(NOBODY).gid(NOBODY);
    }
    command.spawn().ok().map(finished)
}

#[test]
fn files_and_folders_without_permission() {
    let folder = Folder::with(&[
        ("tales/a.inkb", accepted()),
        ("tales/locked/b.inkb", accepted()),
        ("tales/secret.inkb", accepted()),
    ]);
    let allow = |path: &str, mode: u32| {
        set_permissions(folder.0.join(path), Permissions::from_mode(mode)).unwrap();
    };
    allow("", 0o755);
    allow("tales/secret.inkb", 0o000);
    allow("tales/locked", 0o000);
    let probe = folder.0.join("tales/secret.inkb");
    let ran = run_as_anyone(&folder, &probe, &["tales"]);
    let json = run_as_anyone(&folder, &probe, &["--json", "tales/secret.inkb"]);
    let dump = run_as_anyone(&folder, &probe, &["dump", "tales/secret.inkb"]);
    allow("tales/locked", 0o755);
    let (Some(ran), Some(json), Some(dump)) = (ran, json, dump) else {
        return; // the executable lies where no other user may go
    };
    let denied = "unreadable: Permission denied (os error 13)\n";
    let lines =
        format!("tales/a.inkb: accepted\ntales/locked: {denied}tales/secret.inkb: {denied}");
    ran.assert(&lines, 2);
    json.assert("{\"path\":\"tales/secret.inkb\",\"outcome\":\"unreadable\",\"text\":\"Permission denied (os error 13)\"}\n", 2);
    dump.assert(&format!("tales/secret.inkb: {denied}"), 2);
}

#[test]
fn paths_with_control_characters_keep_to_one_line() {
    let folder = Folder::with(&[("two\nlines\x1b[31m.inkb", accepted())]);
    let line = "./two\\x0alines\\x1b[31m.inkb: accepted\n";
    folder.run(&["."]).assert(line, 0);
    let json = r#"{"path":"./two\nlines\u001b[31m.inkb","outcome":"accepted","entries":0}"#;
    folder.run(&["-j", "."]).assert(&format!("{json}\n"), 0);
}

#[test]
fn paths_that_are_not_utf8_are_found_in_folders_too() {
    let folder = Folder::new();
    let path = OsStr::from_bytes(b"caf\xe9.inkb");
    if write(folder.0.join(path), broken("x")).is_err() {
        return; // this file system has no such names
    }
    let output = program(&folder.0).arg(".").output().unwrap();
    let line = b"./caf\xe9.inkb: breach 2 at 0: Divert target not found: '-> x'\n";
    assert_eq!(output.stdout, line);
    assert_eq!(output.status.code(), Some(1));
    let output = program(&folder.0)
        .args([OsStr::new("dump"), path])
        .output()
        .unwrap();
    assert!(output.stdout.starts_with(b"caf\xe9.inkb: 27 bytes\n"));
}

#[test]
fn standard_input_in_every_form() {
    let folder = Folder::new();
    let given = |arguments: &[&str]| run(&folder.0, arguments, &broken("x"));
    let text = "<stdin>: breach 2 at 0: Divert target not found: '-> x'\n";
    given(&["-"]).assert(text, 1);
    let explained = format!("{text}  in the root\n  path: root > Divert 'x' at 0\n");
    given(&["--explain", "-"]).assert(&explained, 1);
    let json = r#"{"path":"<stdin>","outcome":"breach","rule":2,"place":0,"names":[{"name":"x","place":5}],"text":"Divert target not found: '-> x'","entries":0}"#;
    given(&["--json", "-"]).assert(&format!("{json}\n"), 1);
    given(&["dump", "-"]).assert("<stdin>: 27 bytes\n     0  root\n     0    Divert 'x'\n", 0);
    let twice = given(&["-", "-"]);
    assert_eq!(twice.errors, "ink-check: standard input is given twice\n");
    assert_eq!((twice.output.as_str(), twice.status), ("", 2));
}

#[test]
fn the_worst_file_decides_the_status() {
    let folder = Folder::with(&[("good", accepted()), ("bad", broken("x")), ("cut", vec![])]);
    let cases: [(&[&str], i32); 8] = [
        (&["good"], 0),
        (&["bad"], 1),
        (&["cut"], 2),
        (&["missing"], 2),
        (&["good", "bad", "good"], 1),
        (&["cut", "bad"], 2),
        (&["bad", "missing"], 2),
        (&["--quiet", "good", "good"], 0),
    ];
    for (arguments, status) in cases {
        assert_eq!(folder.run(arguments).status, status, "{arguments:?}");
        let json = [&["--json"], arguments].concat();
        assert_eq!(folder.run(&json).status, status, "{json:?}");
    }
}

/// The first line of what the program writes in a folder, its exit status, and its errors, from a shell.
fn first_line(folder: &Folder, arguments: &str) -> String {
    let script = format!("( ( \"$0\" {arguments}; echo status $? >&2 ) | head -n 1 ) 2>&1");
    let mut shell = Command::new("sh");
    shell.args(["-c", &script, env!("CARGO_BIN_EXE_ink-check")]);
    let output = shell.current_dir(&folder.0).output().unwrap();
    String::from_utf8_lossy(&output.stdout).into_owned()
}

#[test]
fn a_pipe_that_is_closed_behind_the_first_line() {
    let many = Story::new().nodes(vec![Node::divert("END"); 20_000]);
    let folder = Folder::with(&[
        ("a.inkb", broken("x".repeat(255).as_str())),
        ("many.inkb", many.encode().unwrap()),
    ]);
    for number in 0..400 {
        let copy = folder.0.join(format!("copy_{number:03}.inkb"));
        std::fs::copy(folder.0.join("a.inkb"), copy).unwrap();
    }
    let text = first_line(&folder, ".");
    assert!(text.starts_with("./a.inkb: breach 2 at 0: "), "{text}");
    assert!(text.ends_with("status 2\n"), "{text}");
    let json = first_line(&folder, "--json .");
    assert!(json.starts_with("{\"path\":\"./a.inkb\","), "{json}");
    assert!(json.ends_with("status 2\n"), "{json}");
    let dump = first_line(&folder, "dump many.inkb");
    assert_eq!(dump, "many.inkb: 180020 bytes\nstatus 2\n");
}
