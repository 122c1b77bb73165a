//! Tables in Markdown.

/// The heading, the rule below it and the rows.
pub fn markdown(heading: &[&str], rows: &[Vec<String>]) -> String {
    let rule = vec!["---"; heading.len()];
    let mut text = line(heading) + &line(&rule);
    for row in rows {
        let cells: Vec<&str> = row.iter().map(String::as_str).collect();
        text += &line(&cells);
    }
    text
}

/// One line of a table.
fn line(cells: &[&str]) -> String {
    format!("| {} |\n", cells.join(" | ")).replace("| --- ", "|---").replace("--- |", "---|")
}

#[cfg(test)]
mod tests {
    use super::*;

    #[test]
    fn cells_stand_between_bars() {
        let rows = [vec!["Open".to_string(), "1.00".to_string()]];
        assert_eq!(
            markdown(&["call", "ratio"], &rows),
            "| call | ratio |\n|---|---|\n| Open | 1.00 |\n"
        );
    }
}
