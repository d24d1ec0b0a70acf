//! Drives the real executable: its lines, its exit statuses, and odd inputs.

#![cfg(unix)]

mod command;

use command::{Folder, accepted, broken, program, ran, run};
use qaabireed::layout::LONGEST_FILE;
use qaabireed::{Choice, Expression, Flow, Node, Stitch, Story};
use std::ffi::OsStr;
use std::fs::write;
use std::os::unix::ffi::OsStrExt;
use std::path::Path;

/// The file of a knot with a stitch, in which a choice's branch diverts nowhere.
fn nested() -> Vec<u8> {
    let branch = Node::conditional_else(Expression::variable("x"), [], [Node::divert("cellar")]);
    let stitch = Stitch::new("dark").node(Choice::new().label("look").node(branch));
    let flow = Flow::knot("hall").node(Node::Plain).stitch(stitch);
    Story::new().flow(flow).encode().unwrap()
}

#[test]
fn each_file_gets_a_line_and_the_worst_decides_the_status() {
    let folder = Folder::with(&[
        ("good", accepted()),
        ("bad", broken("x")),
        ("cut", accepted()[1..].to_vec()),
    ]);
    folder.run(&["good"]).assert("good: accepted\n", 0);
    let bad = "bad: breach 2 at 0: Divert target not found: '-> x'\n";
    folder.run(&["bad"]).assert(bad, 1);
    let cut = "cut: refused 1: the file has 19 bytes, a story file has 20 to 1048576\n";
    folder.run(&["cut"]).assert(cut, 2);
    let all = format!("{cut}good: accepted\n{bad}");
    folder.run(&["cut", "good", "bad"]).assert(&all, 2);
    folder
        .run(&["good", "bad"])
        .assert(&format!("good: accepted\n{bad}"), 1);
}

#[test]
fn the_samples_are_what_their_page_says() {
    let bindings = Path::new(env!("CARGO_MANIFEST_DIR")).join("..");
    let lines = "\
samples/cellar.inkb: breach 2 at 69: Divert target not found: '-> cellar'
  in knot 'hall', stitch 'dark'
  path: knot 'hall' at 9 > stitch 'dark' at 54 > Divert 'cellar' at 69
samples/hall.inkb: accepted
";
    run(&bindings, &["--explain", "samples"], b"").assert(lines, 1);
}

#[test]
fn every_refusal_is_given_in_words() {
    let mut mark = accepted();
    mark[19] = 1;
    let mut starts = accepted();
    starts[0] = 1;
    let file = |root: &[u8]| {
        [
            root,
            &accepted()[..12],
            &[root.len() as u8, 0, 0, 0],
            b"IK\x01\0",
        ]
        .concat()
    };
    let folder = Folder::with(&[
        ("mark", mark),
        ("starts", starts),
        ("bounds", file(b"\x00\x01\0\0\0")),
        ("meaning", file(b"\x11\0\0\0\0")),
    ]);
    let ran = folder.run(&["mark", "starts", "bounds", "meaning"]);
    let lines: Vec<&str> = ran.output.lines().collect();
    let expected = [
        "mark: refused 2: the last four bytes are not the mark",
        "starts: refused 3: the section starts",
        "bounds: refused 4: a field or piece runs past its container",
        "meaning: refused 5: a kind, flag or mode has no meaning",
    ];
    for (line, expected) in lines.iter().zip(expected) {
        assert!(line.starts_with(expected), "{line}");
    }
    assert_eq!((lines.len(), ran.status), (4, 2));
}

#[test]
fn folders_are_searched_at_all_depths_by_name() {
    let folder = Folder::with(&[
        ("tales/b.inkb", accepted()),
        ("tales/a/z.inkb", broken("x")),
        ("tales/a/notes.txt", b"no story".to_vec()),
        ("tales/.inkb", b"no extension".to_vec()),
    ]);
    let lines =
        "tales/a/z.inkb: breach 2 at 0: Divert target not found: '-> x'\ntales/b.inkb: accepted\n";
    folder.run(&["tales"]).assert(lines, 1);
}

#[test]
fn links_are_followed_to_files_but_not_in_circles() {
    let folder = Folder::with(&[("tales/a.inkb", accepted())]);
    let link = |to: &str, at: &str| std::os::unix::fs::symlink(to, folder.0.join(at)).unwrap();
    link("..", "tales/circle");
    link("a.inkb", "tales/b.inkb");
    link("nowhere", "tales/c.inkb");
    link("../tales", "tales/d.inkb");
    let ran = folder.run(&["tales"]);
    let lines: Vec<&str> = ran.output.lines().collect();
    assert_eq!(
        lines[..2],
        ["tales/a.inkb: accepted", "tales/b.inkb: accepted"]
    );
    assert!(lines[2].starts_with("tales/c.inkb: unreadable: No such file"));
    assert_eq!((lines.len(), ran.status), (3, 2));
}

#[test]
fn standard_input_is_read_where_no_path_or_a_dash_is_given() {
    let folder = Folder::with(&[("good", accepted())]);
    let line = "<stdin>: breach 2 at 0: Divert target not found: '-> x'\n";
    run(&folder.0, &[], &broken("x")).assert(line, 1);
    run(&folder.0, &["-"], &broken("x")).assert(line, 1);
    let both = format!("good: accepted\n{line}");
    run(&folder.0, &["good", "-"], &broken("x")).assert(&both, 1);
    let empty = "<stdin>: refused 1: the file is empty, a story file has 20 to 1048576 bytes\n";
    run(&folder.0, &[], b"").assert(empty, 2);
}

#[test]
fn files_up_to_a_mebibyte_are_checked_and_longer_ones_refused() {
    let mut story = Story::new();
    story.globals = vec!["n".repeat(255).into(); 4095];
    let rest = LONGEST_FILE - story.encode().unwrap().len();
    let longest = story.global("n".repeat(rest - 1)).encode().unwrap();
    let mut longer = longest.clone();
    longer.insert(0, 0);
    let folder = Folder::with(&[("longest", longest), ("longer", longer.clone())]);
    let refused = "refused 1: the file has over 1048576 bytes, a story file has 20 to 1048576\n";
    let lines = format!("longest: accepted\nlonger: {refused}");
    folder.run(&["longest", "longer"]).assert(&lines, 2);
    run(&folder.0, &[], &longer).assert(&format!("<stdin>: {refused}"), 2);
    let endless = run(&folder.0, &["/dev/zero"], b"");
    endless.assert(&format!("/dev/zero: {refused}"), 2);
}

#[test]
fn quiet_leaves_accepted_files_out() {
    let folder = Folder::with(&[("a.inkb", accepted()), ("b.inkb", broken("x"))]);
    folder.run(&["-q", "a.inkb"]).assert("", 0);
    let line = "./b.inkb: breach 2 at 0: Divert target not found: '-> x'\n";
    folder.run(&["--quiet", "."]).assert(line, 1);
}

#[test]
fn explain_names_knot_and_stitch_and_the_path() {
    let folder = Folder::with(&[("nested", nested()), ("root", broken("x"))]);
    let lines = "\
nested: breach 2 at 81: Divert target not found: '-> cellar'
  in knot 'hall', stitch 'dark'
  path: knot 'hall' at 0 > stitch 'dark' at 21 > Choice 'look' at 36 > Conditional at 55 > when false > Divert 'cellar' at 81
root: breach 2 at 0: Divert target not found: '-> x'
  in the root
  path: root > Divert 'x' at 0
";
    let ran = folder.run(&["--explain", "nested", "root"]);
    ran.assert(lines, 1);
}

#[test]
fn explain_says_where_the_reading_of_a_refused_file_stopped() {
    let mut damaged = nested();
    damaged[81] = 17;
    let folder = Folder::with(&[
        ("damaged", damaged),
        ("short", vec![1]),
        ("zeros", vec![0; 20]),
    ]);
    let lines = "\
damaged: refused 5: a kind, flag or mode has no meaning
  reading stopped at 81, in knot 'hall', stitch 'dark'
  path: knot 'hall' at 0 > stitch 'dark' at 21 > Choice 'look' at 36 > Conditional at 55 > when false
short: refused 1: the file has 1 byte, a story file has 20 to 1048576
zeros: refused 2: the last four bytes are not the mark 49 4B 01 00
  reading stopped at 16, in the trailer
";
    folder
        .run(&["-e", "damaged", "short", "zeros"])
        .assert(lines, 2);
}

#[test]
fn json_has_one_object_a_line() {
    let folder = Folder::with(&[
        ("good", accepted()),
        ("bad", broken("x")),
        ("empty", vec![]),
    ]);
    let lines = r#"{"path":"good","outcome":"accepted","entries":0}
{"path":"bad","outcome":"breach","rule":2,"place":0,"names":[{"name":"x","place":5}],"text":"Divert target not found: '-> x'","entries":0}
{"path":"empty","outcome":"refused","refusal":1,"text":"the file is empty, a story file has 20 to 1048576 bytes"}
{"path":"none","outcome":"unreadable","text":"No such file or directory (os error 2)"}
"#;
    folder
        .run(&["--json", "good", "bad", "empty", "none"])
        .assert(lines, 2);
}

#[test]
fn json_explains_too() {
    let folder = Folder::with(&[("nested", nested())]);
    let ran = folder.run(&["--json", "--explain", "nested"]);
    let explain = r#""explain":{"place":81,"section":"flows","knot":"hall","stitch":"dark","path":[{"piece":"knot","name":"hall","place":0},{"piece":"stitch","name":"dark","place":21},{"piece":"Choice","name":"look","place":36},{"piece":"Conditional","place":55},{"piece":"when false","place":77},{"piece":"Divert","name":"cellar","place":81}]}}"#;
    assert!(ran.output.contains(explain), "{}", ran.output);
}

#[test]
fn odd_names_are_escaped_in_both_forms() {
    let odd = &b"a\"\\\n\x1b[31m\xe9"[..];
    let folder = Folder::with(&[("odd", broken(odd))]);
    let text = "odd: breach 2 at 0: Divert target not found: '-> a\"\\\\x0a\\x1b[31m\\xe9'\n";
    folder.run(&["odd"]).assert(text, 1);
    let ran = folder.run(&["--json", "odd"]);
    let name = r#"{"name":"a\"\\\n\u001b[31m�","name_hex":"61225c0a1b5b33316de9","place":5}"#;
    assert!(ran.output.contains(name), "{}", ran.output);
    assert_eq!(ran.output.lines().count(), 1);
}

#[test]
fn paths_that_are_not_utf8_are_written_as_given() {
    let folder = Folder::new();
    let path = OsStr::from_bytes(b"caf\xe9.inkb");
    if write(folder.0.join(path), accepted()).is_err() {
        return; // this file system has no such names
    }
    let output = program(&folder.0).arg(path).output().unwrap();
    assert_eq!(output.stdout, b"caf\xe9.inkb: accepted\n");
    let output = program(&folder.0)
        .args([OsStr::new("-j"), path])
        .output()
        .unwrap();
    let json = "{\"path\":\"caf\u{fffd}.inkb\",\"path_hex\":\"636166e92e696e6b62\",\"outcome\":\"accepted\",\"entries\":0}\n";
    assert_eq!(String::from_utf8_lossy(&output.stdout), json);
}

#[test]
fn names_that_look_like_options_follow_two_dashes() {
    let folder = Folder::with(&[("--json", accepted()), ("dump", accepted())]);
    folder
        .run(&["--", "--json"])
        .assert("--json: accepted\n", 0);
    folder.run(&["./dump"]).assert("./dump: accepted\n", 0);
}

#[test]
fn dump_prints_the_structure() {
    let folder = Folder::with(&[("nested", nested()), ("good", accepted())]);
    let lines = "\
nested: 113 bytes
     0  flows
     0    knot 'hall'
    16      Plain
    21      stitch 'dark'
    36        Choice 'look'
    55          Conditional
    60            Expression condition
    65              Variable 'x'
    72            when true
    77            when false
    81              Divert 'cellar'
";
    folder.run(&["dump", "nested"]).assert(lines, 0);
    folder.run(&["dump", "good"]).assert("good: 20 bytes\n", 0);
    run(&folder.0, &["dump"], &broken("x"))
        .assert("<stdin>: 27 bytes\n     0  root\n     0    Divert 'x'\n", 0);
}

#[test]
fn dump_of_a_damaged_file_shows_what_was_read() {
    let mut damaged = nested();
    damaged[36] = 99;
    let folder = Folder::with(&[("damaged", damaged)]);
    let ran = folder.run(&["dump", "damaged"]);
    assert!(ran.output.contains("    21      stitch 'dark'\n"));
    assert!(ran.output.contains("damaged: refused 5: "));
    assert!(
        ran.output
            .contains("  reading stopped at 36, in knot 'hall', stitch 'dark'\n")
    );
    assert_eq!((ran.errors.as_str(), ran.status), ("", 2));
}

#[test]
fn dump_of_what_is_no_file_gets_a_line() {
    let folder = Folder::with(&[("folder/a.inkb", accepted())]);
    let ran = folder.run(&["dump", "folder"]);
    ran.assert("folder: unreadable: Is a directory (os error 21)\n", 2);
}

#[test]
fn help_and_version_are_printed() {
    let folder = Folder::new();
    let help = folder.run(&["--help"]);
    assert!(
        help.output
            .contains("usage: ink-check [OPTIONS] [PATH...]\n")
    );
    assert!(
        help.output
            .contains("exit status: 0 all accepted; 1 some breach; 2 ")
    );
    assert_eq!(help.status, 0);
    let version = format!("ink-check {}\n", env!("CARGO_PKG_VERSION"));
    folder.run(&["--version"]).assert(&version, 0);
    folder.run(&["-V"]).assert(&version, 0);
}

#[test]
fn a_wrong_command_line_is_said_on_standard_error() {
    let folder = Folder::new();
    let ran = folder.run(&["--jsn", "a"]);
    let errors = "ink-check: unknown option: --jsn; see ink-check --help\n";
    assert_eq!((ran.errors.as_str(), ran.status), (errors, 2));
    assert_eq!(ran.output, "");
    assert_eq!(folder.run(&["dump", "a", "b"]).status, 2);
}

#[test]
fn output_that_cannot_be_written_is_said() {
    let folder = Folder::with(&[("a.inkb", accepted())]);
    let full = std::fs::OpenOptions::new().write(true).open("/dev/full");
    let Ok(full) = full else {
        return; // this system has no such device
    };
    let output = program(&folder.0)
        .arg("a.inkb")
        .stdout(full)
        .output()
        .unwrap();
    let ran = ran(output);
    assert!(
        ran.errors
            .starts_with("ink-check: standard output: No space left")
    );
    assert_eq!(ran.status, 2);
}
