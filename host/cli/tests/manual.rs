//! The manual page and the completions for bash have every command and option of the help texts, and no other.

mod common;

use common::fine;
use std::collections::BTreeSet;
use std::process::Command;

/// What a help command prints.
fn help(words: &str) -> String {
    String::from_utf8(fine(&format!("help {words}"), &[])).unwrap()
}

/// The commands, as the common help text lists them.
fn commands() -> Vec<String> {
    let common = help("");
    let listed = common.lines().skip_while(|line| !line.starts_with("  "));
    let listed = listed.take_while(|line| line.starts_with("  "));
    listed.map(|line| line.split_whitespace().next().unwrap().to_string()).collect()
}

/// The options that a help text names, but for those of its example.
fn options(text: &str) -> BTreeSet<String> {
    let lines = text.lines().take_while(|line| !line.starts_with("Example: "));
    let words =
        lines.flat_map(|line| line.split([' ', '[', ']', ',', '.', ';', ':', '=', '(', ')', '`']));
    words.filter(|word| word.len() > 2 && word.starts_with("--")).map(str::to_string).collect()
}

/// The manual page as one reads it: signs of its own are undone.
fn page() -> String {
    let signs = [("\\&", ""), ("\\-", "-"), ("\\(aq", "'"), ("\\(ga", "`"), ("\\e", "\\")];
    signs.iter().fold(help("--man"), |page, (name, sign)| page.replace(name, sign))
}

/// A section for each command, in the order of the common text, with its help text line by line and nothing else.
#[test]
fn the_manual_page_is_the_help_texts() {
    let page = page();
    let (beginning, sections) = page.split_once("\n.SH COMMANDS\n").unwrap();
    let whole = |text: &str| format!(".nf\n{text}.fi\n");
    assert!(beginning.ends_with(whole(&help("")).trim_end()));
    assert!(commands().len() >= 11);
    let expected: String =
        commands().iter().map(|name| format!(".SS {name}\n{}", whole(&help(name)))).collect();
    assert_eq!(sections, expected);
}

#[test]
fn the_manual_page_is_well_formed() {
    let file = std::path::Path::new(env!("CARGO_TARGET_TMPDIR")).join("mavunilai.1");
    std::fs::write(&file, help("--man")).unwrap();
    let Ok(ended) = Command::new("groff").args(["-ww", "-man", "-Tascii"]).arg(&file).output()
    else {
        return eprintln!("not tried, no groff");
    };
    assert_eq!(String::from_utf8(ended.stderr).unwrap(), "");
    assert!(ended.status.success());
}

/// What bash offers after these words; none, with a note, where there is no bash.
fn offered(words: &str) -> Option<BTreeSet<String>> {
    let script = format!(
        "{}\nCOMP_WORDS=({words})\nCOMP_CWORD=$((${{#COMP_WORDS[@]}} - 1))\n_mavunilai\n\
         printf '%s\\n' \"${{COMPREPLY[@]}}\"\ncomplete -p mavunilai >/dev/null",
        help("--bash")
    );
    let Ok(ended) = Command::new("bash").args(["-c", &script]).output() else {
        eprintln!("not tried, no bash");
        return None;
    };
    assert!(ended.status.success(), "{}", String::from_utf8_lossy(&ended.stderr));
    let lines = String::from_utf8(ended.stdout).unwrap();
    Some(lines.lines().filter(|line| !line.is_empty()).map(str::to_string).collect())
}

#[test]
fn commands_are_completed() {
    let Some(first) = offered("mavunilai ''") else { return };
    let more = ["help", "--help", "--version"].map(str::to_string);
    assert_eq!(first, commands().into_iter().chain(more).collect());
    assert_eq!(offered("mavunilai obs"), Some(BTreeSet::from(["observer".to_string()])));
}

/// Each option of a command is offered, and whatever is offered stands in its help text.
#[test]
fn options_are_completed() {
    for name in commands() {
        let text = help(&name);
        let Some(options_offered) = offered(&format!("mavunilai {name} x --")) else { return };
        assert_eq!(options_offered, options(&text), "{name}");
        for word in offered(&format!("mavunilai {name} ''")).unwrap() {
            let mut stands = text.split_whitespace().map(|found| found.trim_matches(['[', ']']));
            assert!(stands.any(|found| found == word) || options(&text).contains(&word), "{word}");
        }
    }
    let calls = offered("mavunilai call b ''").unwrap();
    assert!(["deliver", "fetch", "run", "--out"].iter().all(|word| calls.contains(*word)));
}
