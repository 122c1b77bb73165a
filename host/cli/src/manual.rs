//! The manual page and the completions for bash, made from the help texts, so that they say what help says.

use crate::help;
use crate::problem::Problem;

/// Writes the manual page in the form that `man` reads.
pub fn page(output: &mut Vec<u8>) -> Result<(), Problem> {
    let common = text("")?;
    let version = env!("CARGO_PKG_VERSION");
    let mut page = format!(
        ".TH MAVUNILAI 1 \"\" \"mavunilai {version}\" \"Mavunilai\"\n\
         .SH NAME\nmavunilai \\- frames, books and calls of a station that keeps a shared register\n\
         .SH SYNOPSIS\n.B mavunilai\n.I COMMAND ..\n.SH DESCRIPTION\n"
    );
    page.push_str(&as_it_stands(&common));
    page.push_str(".SH COMMANDS\n");
    for name in first_words(&common) {
        page.push_str(&format!(".SS {}\n", escaped(&name)));
        page.push_str(&as_it_stands(&text(&name)?));
    }
    output.extend_from_slice(page.as_bytes());
    Ok(())
}

/// Writes the completions as a file that bash reads.
pub fn completions(output: &mut Vec<u8>) -> Result<(), Problem> {
    let names = first_words(&text("")?);
    let mut cases = String::new();
    for name in &names {
        let words = words_of(name, &text(name)?).join(" ");
        cases.push_str(&format!("    {name}) words='{words}' ;;\n"));
    }
    let names = names.join(" ");
    let script = format!(
        "# Completions of mavunilai for bash, as `mavunilai help --bash` prints them.\n\
         _mavunilai() {{\n    local words=''\n    case ${{COMP_WORDS[1]}} in\n{cases}    \
         help) words='{names} --man --bash' ;;\n    esac\n    \
         [ \"$COMP_CWORD\" -gt 1 ] || words='{names} help --help --version'\n    \
         COMPREPLY=($(compgen -W \"$words\" -- \"${{COMP_WORDS[COMP_CWORD]}}\"))\n}}\n\
         complete -o default -F _mavunilai mavunilai\n"
    );
    output.extend_from_slice(script.as_bytes());
    Ok(())
}

/// The help text of a command, the common one for no name.
fn text(name: &str) -> Result<String, Problem> {
    let mut text = Vec::new();
    help::print(name, &mut text)?;
    Ok(String::from_utf8_lossy(&text).into_owned())
}

/// The words that stand first in the indented lines of a text, with their meaning apart behind them: commands, kinds.
fn first_words(text: &str) -> Vec<String> {
    let word = |line: &str| {
        let (word, rest) = line.strip_prefix("  ")?.split_once("  ")?;
        (is_word(word) && !rest.is_empty()).then(|| word.to_string())
    };
    text.lines().filter_map(word).collect()
}

/// What may follow a command: the words of its first lines, the kinds that it lists, and its options.
fn words_of(name: &str, text: &str) -> Vec<String> {
    let usage = text.lines().take_while(|line| line.starts_with("mavunilai "));
    let mut words: Vec<String> = usage
        .flat_map(str::split_whitespace)
        .filter(|word| is_word(word) && *word != "mavunilai" && *word != name)
        .map(str::to_string)
        .collect();
    words.extend(first_words(text));
    words.extend(options(text));
    let mut seen = std::collections::BTreeSet::new();
    words.retain(|word| seen.insert(word.clone()));
    words
}

/// The options of a text, as --n; an example may have those of another command.
fn options(text: &str) -> impl Iterator<Item = String> + '_ {
    let own = text.split("\nExample: ").next().unwrap_or("");
    let pieces = own.split(|letter: char| !letter.is_ascii_lowercase() && letter != '-');
    let option = |piece: &&str| piece.strip_prefix("--").is_some_and(is_word);
    pieces.filter(option).map(|piece| piece.trim_end_matches('-').to_string())
}

/// Whether a word is made of small letters, with hyphens between them.
fn is_word(word: &str) -> bool {
    let letter = |letter: char| letter.is_ascii_lowercase() || letter == '-';
    word.starts_with(|first: char| first.is_ascii_lowercase()) && word.chars().all(letter)
}

/// Lines for the manual page that are printed as they stand.
fn as_it_stands(text: &str) -> String {
    let lines: String = text.lines().map(|line| escaped(line) + "\n").collect();
    format!(".nf\n{lines}.fi\n")
}

/// A line in which nothing is taken for a sign of the manual page's own.
fn escaped(line: &str) -> String {
    let signs = [("\\", "\\e"), ("-", "\\-"), ("'", "\\(aq"), ("`", "\\(ga")];
    let line = signs.iter().fold(line.to_string(), |line, (sign, name)| line.replace(sign, name));
    if line.starts_with('.') {
        return format!("\\&{line}");
    }
    line
}
