//! The command as it is called: what it prints, what it says on standard error, and its exit status.
use std::ffi::OsStr;
use std::fs;
use std::io::Write;
use std::os::unix::ffi::OsStrExt;
use std::path::PathBuf;
use std::process::{Command, Output, Stdio};

fn sample(name: &str) -> String {
    format!("{}/../../samples/{name}", env!("CARGO_MANIFEST_DIR"))
}

/// A file of this test's own.
fn file(name: &str, bytes: &[u8]) -> String {
    let path = PathBuf::from(env!("CARGO_TARGET_TMPDIR")).join(name);
    fs::write(&path, bytes).expect("a file in the temporary folder");
    path.to_str().expect("a path of characters").to_owned()
}

fn run_with(words: &[&str], input: &[u8]) -> Output {
    let mut command = Command::new(env!("CARGO_BIN_EXE_mealplan"));
    command.args(words).stdin(Stdio::piped()).stdout(Stdio::piped()).stderr(Stdio::piped());
    let mut running = command.spawn().expect("the command");
    // A command that doesn't read it is no fault.
    let _ = running.stdin.take().expect("its input").write_all(input);
    running.wait_with_output().expect("its output")
}

fn run(words: &[&str]) -> Output {
    run_with(words, b"")
}

/// What a command prints that is done.
fn prints(words: &[&str]) -> String {
    let output = run(words);
    assert_eq!((output.status.code(), &output.stderr[..]), (Some(0), &b""[..]), "{words:?}: {output:?}");
    String::from_utf8(output.stdout).expect("text")
}

/// What a command says that ends with this status and prints nothing.
fn says(words: &[&str], status: i32) -> String {
    let output = run(words);
    assert_eq!((output.status.code(), &output.stdout[..]), (Some(status), &b""[..]), "{words:?}: {output:?}");
    String::from_utf8(output.stderr).expect("text")
}

/// The sample plan's rules.
const RULES: &str = "narrow
start 7
0 = empty
1 = node 97 0
2 = node 98 0
3 = pair 1 2
4 = part 99 3 2
5 = join 4 4
6 = fill 5 1
7 = pair 6 3
";

#[test]
fn check_and_measure() {
    assert_eq!(prints(&["check", &sample("plan.bin")]), "format narrow\nrules 8\nstart 7\ncover 0\n");
    assert_eq!(prints(&["check", &sample("wide.bin")]), "format wide\nrules 8\nstart 7\ncover 0\n");
    assert_eq!(prints(&["measure", &sample("wide.bin")]), "trees 3\nentries 11\nlevels 3\n");
    let covered = [b"cover".as_slice(), &fs::read(sample("plan.bin")).expect("the sample")].concat();
    let output = run_with(&["check", "-"], &covered);
    assert_eq!(String::from_utf8_lossy(&output.stdout), "format narrow\nrules 8\nstart 7\ncover 5\n");
}

#[test]
fn spread() {
    assert_eq!(prints(&["spread", &sample("plan.bin")]), "(c(a)(b)(c(a)(b)(a)(b))(b))(a)(b)");
    assert_eq!(prints(&["spread", "--decimal", &sample("plan.bin")]), "(99(97)(98)(99(97)(98)(97)(98))(98))(97)(98)");
    assert_eq!(run(&["spread", "--most", "55", &sample("wide.bin")]).stdout.len(), 55);
    assert!(says(&["spread", "--most=54", &sample("wide.bin")], 1).contains("refused 11 at 0: "));
}

#[test]
fn rules_and_seal() {
    assert_eq!(prints(&["rules", &sample("plan.bin")]), RULES);
    for name in ["plan.bin", "wide.bin"] {
        let text = file(&format!("{name}.txt"), prints(&["rules", &sample(name)]).as_bytes());
        let plan = fs::read(sample(name)).expect("the sample");
        assert_eq!(run(&["seal", &text]).stdout, plan);
        let sealed = file(&format!("{name}.sealed"), b"");
        assert_eq!(prints(&["seal", "-o", &sealed, &text]), "");
        assert_eq!(fs::read(&sealed).expect("it was written"), plan);
    }
    let output = run_with(&["seal", "-"], b"# a leaf\n1 = node 65536 0\n0 = empty\n");
    assert_eq!(&output.stdout[output.stdout.len() - 2..], b"mq");
}

#[test]
fn faulty_rules_are_told_with_their_line() {
    let seal = |name, text: &str| says(&["seal", &file(name, text.as_bytes())], 1);
    assert!(
        seal("cycle", "# one\n0 = pair 0 0\n")
            .ends_with("cycle, line 2: refused 12 at 0: rule 0 reaches itself through the rules it names\n")
    );
    assert!(
        seal("sort", "1 = pair 0 2\n0 = empty\n2 = part 1 0 0\nstart 0").contains("sort, line 1: refused 6 at 1: ")
    );
    assert!(seal("below", "0 = node 1 3").contains("below, line 1: refused 5 at 0: "));
    assert!(seal("label", "narrow\n0 = empty\n1 = node 256 0").contains("label, line 3: refused 4 at 1: "));
    assert!(seal("start", "0 = empty\nstart 1").contains("start: refused 7 at 0: "));
    assert!(seal("nothing", "").contains("nothing: refused 2 at 0: "));
    assert!(seal("gap", "0 = empty\n2 = empty").contains("gap, line 2: there is a rule 2, but no rule 1"));
    assert!(
        seal("many", &(0..16_385).map(|rule| format!("{rule} = empty\n")).collect::<String>())
            .contains("refused 2 at 0")
    );
    assert!(says(&["seal", &sample("plan.bin")], 1).contains("line 1: this is no"));
}

#[test]
fn show() {
    let all = "99 c\n  97 a\n  98 b\n  99 c\n    97 a\n    98 b\n    97 a\n    98 b\n  98 b\n97 a\n98 b\n";
    assert_eq!(prints(&["show", &sample("plan.bin")]), all);
    assert_eq!(prints(&["show", "--depth", "1", &sample("plan.bin")]), "99 c ...\n97 a\n98 b\n");
    assert_eq!(prints(&["show", "--lines=2", &sample("plan.bin")]), "99 c\n  97 a\n... and more\n");
    assert_eq!(
        prints(&["show", "--at", "afnn", "--lines", "2", &sample("wide.bin")]),
        "16777215\n  65535\n... and more\n"
    );
    assert!(says(&["show", "--at", "f", &sample("wide.bin")], 1).contains("keys f: refused 10 at 0: "));
    assert!(says(&["show", "--at", "afx", &sample("wide.bin")], 1).contains("keys afx: refused 9 at 2: "));
}

#[test]
fn one_rule_alone() {
    let plan = sample("plan.bin");
    assert_eq!(prints(&["walk", "--rule", "3", &plan, "annu"]), "a 97\nn 98\nn -\nu -\n");
    assert_eq!(prints(&["walk", "--rule=0", &plan, "az"]), "a -\nz -\n");
    assert_eq!(prints(&["walk", "--rule", "7", &plan, "afnn"]), prints(&["walk", &plan, "afnn"]));
    assert_eq!(prints(&["show", "--rule", "3", &plan]), "97 a\n98 b\n");
    assert_eq!(prints(&["show", "--rule", "6", "--depth", "1", &plan]), "99 c ...\n");
    assert_eq!(prints(&["show", "--rule", "6", "--at", "afn", &sample("wide.bin")]), "66051\n");
    assert_eq!(prints(&["show", "--rule", "0", &plan]), "");
    assert_eq!(prints(&["compare", "--rule", "6", "--with-rule", "7", &plan, "a", "a"]), "same 9\n");
    assert_eq!(prints(&["compare", "--rule", "6", &plan, "a", "afnn"]), "differ 4\n");
    assert_eq!(prints(&["compare", "--with-rule", "3", &plan, "an", "a"]), "same 1\n");
    assert_eq!(prints(&["compare", "--with-rule", "3", &plan, "an", "an"]), "differ 1\n");
    for rule in ["4", "5", "8", "65535"] {
        let refused = format!("mealplan: rule {rule}: refused 10 at 0: ");
        assert!(says(&["walk", "--rule", rule, &plan, "a"], 1).starts_with(&refused));
        assert!(says(&["show", "--rule", rule, &plan], 1).starts_with(&refused));
        assert!(says(&["compare", "--rule", rule, &plan, "a", "a"], 1).starts_with(&refused));
        assert!(says(&["compare", "--with-rule", rule, &plan, "a", "a"], 1).starts_with(&refused));
    }
    assert!(says(&["walk", "--rule", "3", &plan, "ax"], 1).contains("keys ax: refused 9 at 1: "));
    assert!(says(&["show", "--rule", "0", "--at", "a", &plan], 1).contains("keys a: refused 10 at 0: "));
    assert!(says(&["walk", "--rule", "65536", &plan, "a"], 2).contains("--rule: '65536' is no number, or too large"));
    assert!(says(&["walk", "--rule", "3"], 2).contains("usage: mealplan walk [--rule R] PLAN KEYS"));
}

#[test]
fn a_forest_that_nobody_unfolds() {
    let doubled: String = (1..=900).map(|row| format!("{} = pair {row} {row}\n", row + 1)).collect();
    let text = file("large.txt", format!("0 = empty\n1 = node 97 0\n{doubled}902 = node 98 901\n").as_bytes());
    let plan = file("large.bin", &run(&["seal", &text]).stdout);
    assert_eq!(prints(&["show", "--lines", "3", &plan]), "98 b\n  97 a\n  97 a\n... and more\n");
    assert_eq!(prints(&["show", "--depth", "1", &plan]), "98 b ...\n");
    assert_eq!(prints(&["walk", &plan, "alpn"]), "a 98\nl 97\np 97\nn 97\n");
    assert!(
        says(&["measure", &plan], 1)
            .ends_with("refused 11 at 0: the output is too short, or there are over 2^64 - 1 nodes or grams\n")
    );
    assert!(says(&["grams", &plan, &sample("grams.txt")], 1).contains("large.bin: refused 11 at 0: "));
    assert_eq!(
        prints(&["grams", &plan, &file("light.txt", b"0 97 0\n98 98 0 65535\n99 16777215 0 1\n")]),
        "grams 65535\n"
    );
    assert_eq!(prints(&["rules", &plan]).lines().count(), 905);
}

#[test]
fn walk() {
    let answers = "a 99\nf 97\nn 98\nn 99\nf 97\nn 98\nn 97\nn 98\nn -\nu 99\nn 98\nu 99\nn 97\nn 98\nn -\n";
    assert_eq!(prints(&["walk", &sample("plan.bin"), "afnnfnnnnununnn"]), answers);
    assert_eq!(prints(&["walk", &sample("plan.bin"), ""]), "");
    let refused = "refused 9 at 1: byte 1, counted from 0, is outside a z f l n p u s\n";
    assert!(says(&["walk", &sample("plan.bin"), "aéf"], 1).ends_with(refused));
}

#[test]
fn why() {
    let plan = sample("plan.bin");
    let moves = |key| format!("{key} 0 this key moves\n");
    let above = |key| format!("{key} 1 above the forest only a and z lead in\n");
    let none = "this has no children: nothing is below it\n";
    let (first, last) = (
        "this is the first of its siblings: nothing comes before it\n",
        "this is the last of its siblings: nothing comes next\n",
    );
    let root = "u 6 this is a root: nothing is above it\n";
    assert_eq!(
        prints(&["why", &plan, "", "azflnpus"]),
        ['a', 'z'].map(moves).concat() + &['f', 'l', 'n', 'p', 'u', 's'].map(above).concat()
    );
    assert_eq!(
        prints(&["why", &plan, "a", "azpus"]),
        ['a', 'z'].map(moves).concat() + &format!("p 5 {first}{root}") + &moves('s')
    );
    assert_eq!(prints(&["why", &plan, "al", "flnu"]), format!("f 3 {none}l 3 {none}n 4 {last}") + &moves('u'));
    assert_eq!(prints(&["why", &plan, "zn", "n"]), format!("n 4 {last}"), "a key that leads nowhere keeps the place");
    assert_eq!(prints(&["why", &plan, "a", ""]), "");
    let empty = |key| format!("{key} 2 the forest is empty: no key leads anywhere\n");
    assert_eq!(prints(&["why", "--rule", "0", &plan, "", "as"]), ['a', 's'].map(empty).concat());
    assert_eq!(
        prints(&["why", "--rule", "6", &sample("wide.bin"), "a", "npu"]),
        format!("n 4 {last}p 5 {first}{root}")
    );
    assert!(says(&["why", "--rule", "4", &plan, "", "a"], 1).starts_with("mealplan: rule 4: refused 10 at 0: "));
    assert!(says(&["why", &plan, "ax", "n"], 1).starts_with("mealplan: keys ax: refused 9 at 1: "));
    assert!(says(&["why", &plan, "a", "nx"], 1).starts_with("mealplan: key x: refused 9 at 0: "));
    assert!(says(&["why", &plan, "a", "é"], 1).starts_with("mealplan: key \\xc3: refused 9 at 0: "));
    assert!(says(&["why", &plan, "a"], 2).contains("usage: mealplan why [--rule R] PLAN KEYS ASKED"));
}

#[test]
fn compare() {
    let plan = sample("plan.bin");
    assert_eq!(prints(&["compare", &plan, "a", "a"]), "same 9\n");
    assert_eq!(prints(&["compare", &plan, "a", "afnn"]), "differ 4\n");
    assert_eq!(prints(&["compare", "--budget", "3", &plan, "a", "afnn"]), "spent 3\n");
    assert!(says(&["compare", &plan, "f", "a"], 1).contains("plan.bin: refused 10 at 0: "));
    assert!(says(&["compare", "--budget", "4294967296", &plan, "a", "a"], 2).contains("usage: mealplan compare "));
}

#[test]
fn classes_and_copy() {
    let list = sample("classes.txt");
    assert_eq!(prints(&["classes", &list]), "rows 3\n");
    assert_eq!(prints(&["classes", &list, "97", "98", "16777215"]), "97 0\n98 2\n16777215 1\n");
    assert!(says(&["classes", &list, "16777216"], 1).contains("label 16777216: refused 4 at 0: "));
    assert!(says(&["classes", &list, "x"], 2).contains("'x' is no number"));
    let gap = file("gap.txt", b"0 97 0\n# no 98\n99 16777215 1\n");
    assert!(says(&["classes", &gap], 1).contains("gap.txt, line 3: refused 14 at 1: "));
    let short = file("short.txt", b"0 97 0\n");
    assert!(says(&["classes", &short], 1).contains("short.txt: refused 14 at 1: "));

    let copy = file("copy.bin", &run(&["copy", &sample("plan.bin"), &list, "1"]).stdout);
    assert_eq!(prints(&["show", &copy]), "99 c\n  97 a\n  99 c\n    97 a\n    97 a\n97 a\n");
    assert_eq!(prints(&["copy", "-o", &copy, &sample("plan.bin"), &list, "0"]), "");
    assert_eq!(prints(&["show", &copy]), "97 a\n");
    assert!(says(&["copy", &sample("plan.bin"), &list, "4"], 1).contains("class 4: refused 13 at 0: "));
    assert!(says(&["copy", &sample("plan.bin"), &gap, "4"], 1).contains("gap.txt, line 3: refused 14 at 1: "));
    assert!(says(&["copy", &gap, &list, "4"], 1).contains("gap.txt: refused 1 at 0: "));
    assert!(says(&["copy", &sample("plan.bin"), &list, "65536"], 2).contains("the class: '65536' is no number"));
}

#[test]
fn dividers() {
    let text = file("divided.txt", RULES.replace("node 98", "node 0").as_bytes());
    let plan = file("divided.bin", &run(&["seal", &text]).stdout);
    assert_eq!(prints(&["measure", &plan]), "trees 3\nentries 6\nlevels 3\n");
    assert_eq!(run(&["spread", "--most", "33", &plan]).stdout, b"(c(a)(\0)(c(a)(\0)(a)(\0))(\0))(a)(\0)");
    assert_eq!(prints(&["spread", "--decimal", &plan]), "(99(97)(0)(99(97)(0)(97)(0))(0))(97)(0)");
    assert!(says(&["spread", "--most", "32", &plan], 1).contains("divided.bin: refused 11 at 0: "));
    assert_eq!(prints(&["compare", &plan, "a", "a"]), "same 9\n");
    assert_eq!(prints(&["grams", &plan, &file("each.txt", b"0 16777215 0 1\n")]), "grams 11\n");
}

#[test]
fn grams() {
    let list = sample("grams.txt");
    assert_eq!(prints(&["grams", &sample("plan.bin"), &list]), "grams 1130\n");
    assert_eq!(prints(&["grams", &sample("wide.bin"), &list]), "grams 2750\n");
    assert_eq!(prints(&["classes", &list, "97", "98", "99"]), "97 0\n98 2\n99 1\n");
    // A list from before there were grams.
    assert_eq!(prints(&["grams", &sample("plan.bin"), &sample("classes.txt")]), "grams 0\n");
    for (class, grams) in [("0", 120), ("1", 980), ("2", 1_130)] {
        let copy = file("weighed.bin", &run(&["copy", &sample("plan.bin"), &list, class]).stdout);
        assert_eq!(prints(&["grams", &copy, &list]), format!("grams {grams}\n"));
    }
    let output = run_with(&["grams", "-", &list], &fs::read(sample("plan.bin")).expect("the sample"));
    assert_eq!(String::from_utf8_lossy(&output.stdout), "grams 1130\n");
    let gap = file("lighter.txt", b"0 97 0 120\n# no 98\n99 16777215 1 250\n");
    assert!(says(&["grams", &sample("plan.bin"), &gap], 1).contains("lighter.txt, line 3: refused 14 at 1: "));
    assert!(says(&["grams", &gap, &gap], 1).contains("lighter.txt: refused 1 at 0: "));
    let heavy = file("heavy.txt", b"0 16777215 0 65536\n");
    assert!(says(&["grams", &sample("plan.bin"), &heavy], 1).contains("heavy.txt, line 1: this is no row"));
    assert!(says(&["grams", &sample("plan.bin")], 2).contains("usage: mealplan grams PLAN LIST.txt"));
}

#[test]
fn plans_are_refused_in_words() {
    let plan = fs::read(sample("plan.bin")).expect("the sample");
    let damaged = |name, at: usize, byte: u8| {
        let mut plan = plan.clone();
        plan[at] = byte;
        file(name, &plan)
    };
    for command in ["check", "measure", "spread", "rules", "show"] {
        let refused = |name, at, byte| says(&[command, &damaged(name, at, byte)], 1);
        assert!(refused("mark", 73, 0).contains("mark: refused 1 at 0: fewer than 10 bytes"));
        assert!(refused("distance", 68, 65).contains("distance: refused 3 at 0: "));
        assert!(refused("kind", 16, 6).contains("kind: refused 4 at 2: rule 2 has a kind above 5"));
        assert!(refused("start", 66, 4).contains("start: refused 7 at 0: "));
    }
    assert!(says(&["check", &file("empty", b"")], 1).contains("refused 1 at 0"));
}

#[test]
fn calls_that_are_wrong_end_with_2() {
    for words in [
        &[][..],
        &["mend"],
        &["check"],
        &["check", "a", "b"],
        &["walk", "a"],
        &["show", "--deep", "a"],
        &["show", "--depth"],
    ] {
        assert!(says(words, 2).contains("mealplan: "), "{words:?}");
    }
    assert!(says(&["check", "no such file"], 2).starts_with("mealplan: no such file: "));
    assert!(
        says(&["seal", "-o", "/no such folder/plan", &file("one.txt", b"0 = empty")], 2)
            .contains("/no such folder/plan: ")
    );
    assert!(says(&["read", &sample("plan.bin")], 2).contains("a reader needs a terminal"));
    assert!(says(&["read", "-"], 2).contains("the plan is in a file"));
    let output = Command::new(env!("CARGO_BIN_EXE_mealplan"))
        .arg("check")
        .arg(OsStr::from_bytes(b"\xFF"))
        .output()
        .expect("the command");
    assert_eq!(output.status.code(), Some(2));
}

#[test]
fn every_command_has_help() {
    let overview = prints(&["--help"]);
    let names: Vec<&str> = overview
        .lines()
        .filter(|line| line.starts_with("  "))
        .filter_map(|line| line.split_whitespace().next())
        .collect();
    assert_eq!(
        names,
        [
            "check", "measure", "spread", "rules", "seal", "show", "walk", "why", "compare", "classes", "copy",
            "grams", "read"
        ]
    );
    for name in names {
        assert!(prints(&[name, "--help"]).starts_with(&format!("usage: mealplan {name} ")));
        assert_eq!(prints(&["help", name]), prints(&[name, "-h"]));
    }
    assert!(prints(&["--version"]).starts_with("mealplan 0."));
}

#[test]
fn an_output_that_nobody_reads_is_no_fault() {
    let mut command = Command::new(env!("CARGO_BIN_EXE_mealplan"));
    let mut running = command.args(["show", &sample("plan.bin")]).stdout(Stdio::piped()).spawn().expect("the command");
    drop(running.stdout.take());
    assert_eq!(running.wait().expect("its end").code(), Some(0));
}

/// Bytes with one of them changed, in each place, in two ways.
fn damaged(bytes: &[u8]) -> impl Iterator<Item = Vec<u8>> {
    (0..2 * bytes.len()).map(|i| {
        let mut damaged = bytes.to_vec();
        damaged[i / 2] ^= [1, 0x84][i % 2];
        damaged
    })
}

#[test]
fn whatever_is_damaged_is_told_or_taken() {
    let told_or_taken = |words: &[&str], input: &[u8]| {
        let output = run_with(words, input);
        assert!(matches!(output.status.code(), Some(0 | 1)), "{words:?} on {input:?}: {output:?}");
    };
    for name in ["plan.bin", "wide.bin"] {
        for plan in damaged(&fs::read(sample(name)).expect("the sample")) {
            told_or_taken(&["rules", "-"], &plan);
            told_or_taken(&["show", "-"], &plan);
        }
    }
    damaged(RULES.as_bytes()).for_each(|text| told_or_taken(&["seal", "-"], &text));
    for name in ["classes.txt", "grams.txt"] {
        let list = fs::read(sample(name)).expect("the sample");
        damaged(&list).for_each(|text| told_or_taken(&["classes", "-"], &text));
    }
}
