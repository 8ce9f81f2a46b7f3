//! The passages of a document in Markdown: its paragraphs, the items of its lists and the rows of its tables.

/// A paragraph, an item of a list, or a row of a table.
#[derive(Debug, PartialEq, Eq)]
pub struct Passage {
    /// Counted from 1.
    pub line: usize,
    /// The heading that it stands under.
    pub heading: String,
    /// Of a row its cells, else the text alone.
    pub cells: Vec<String>,
}

/// The passages of a text; blocks of code and heads of tables are none.
pub fn passages(text: &str) -> Vec<Passage> {
    let mut passages: Vec<Passage> = Vec::new();
    let (mut heading, mut fenced, mut open) = (String::new(), false, false);
    for (line, text) in (1..).zip(text.lines()) {
        let start = text.trim_start();
        fenced ^= start.starts_with("```");
        let continues = open && !is_row(text) && !is_item(start);
        open = !fenced && !start.is_empty() && !text.starts_with('#') && !is_row(text) && !start.starts_with("```");
        if text.starts_with('#') && !fenced {
            heading = text.trim_matches(['#', ' ']).to_string();
        } else if is_rule(text) && !fenced {
            passages.pop();
        } else if is_row(text) && !fenced {
            passages.push(Passage { line, heading: heading.clone(), cells: cells(text) });
        } else if open && continues {
            let last = passages.last_mut().expect("it was opened");
            last.cells[0] += &format!(" {start}");
        } else if open {
            passages.push(Passage { line, heading: heading.clone(), cells: vec![start.to_string()] });
        }
    }
    passages
}

fn is_row(line: &str) -> bool {
    line.starts_with('|')
}

fn is_item(start: &str) -> bool {
    let number = start.trim_start_matches(|letter: char| letter.is_ascii_digit());
    start.starts_with("- ") || (number.len() < start.len() && number.starts_with(". "))
}

/// The places of the bars that part cells: a bar inside a cell stands behind a backslash, in code too.
fn bars(row: &str) -> Vec<usize> {
    row.match_indices('|').map(|(place, _)| place).filter(|place| !row[..*place].ends_with('\\')).collect()
}

fn cells(row: &str) -> Vec<String> {
    bars(row).windows(2).map(|pair| row[pair[0] + 1..pair[1]].trim().replace("\\|", "|")).collect()
}

/// The line below a table's head.
fn is_rule(row: &str) -> bool {
    row.starts_with("|-") && row.chars().all(|letter| "|-: ".contains(letter))
}

/// What is wrong with a text's tables: each has a head with a rule below it, and each row ends with a bar and has as many cells as the head.
pub fn broken_tables(text: &str) -> Vec<String> {
    let lines: Vec<&str> = text.lines().collect();
    let mut broken = Vec::new();
    let mut head = 0;
    for (place, row) in lines.iter().enumerate().filter(|(_, line)| is_row(line)) {
        let above = place.checked_sub(1).map(|above| lines[above]);
        if !above.is_some_and(is_row) {
            head = bars(row).len();
            if !lines.get(place + 1).is_some_and(|below| is_rule(below)) {
                broken.push(format!("line {}: a row without a head: {row}", place + 1));
            }
        }
        if bars(row).len() != head || !row.trim_end().ends_with('|') {
            broken.push(format!("line {}: {} bars, and {head} in the head: {row}", place + 1, bars(row).len()));
        }
    }
    broken
}

/// A text's links: what stands behind `](`, up to the next `)`.
pub fn links(text: &str) -> Vec<&str> {
    text.split("](").skip(1).filter_map(|rest| rest.split_once(')')).map(|(target, _)| target).collect()
}

#[cfg(test)]
mod tests {
    use super::*;

    #[test]
    fn paragraphs_items_and_rows_are_passages() {
        let text = "# Top\n\none\ntwo\n\n## Next\n- a\n  b\n- c\n1. d\n\n| h | i |\n|---|---|\n| x | `y\\|z` |\n\n```\ncode\n```\nend\n";
        let found: Vec<(usize, String, String)> =
            passages(text).into_iter().map(|passage| (passage.line, passage.heading, passage.cells.join("/"))).collect();
        let expected = [
            (3, "Top", "one two"),
            (7, "Next", "- a b"),
            (9, "Next", "- c"),
            (10, "Next", "1. d"),
            (14, "Next", "x/`y|z`"),
            (19, "Next", "end"),
        ];
        assert_eq!(found, expected.map(|(line, heading, text)| (line, heading.to_string(), text.to_string())));
    }

    #[test]
    fn a_broken_table_is_reported() {
        assert_eq!(broken_tables("| a | b |\n|---|---|\n| c | `d\\|e` |\n\ntext\n"), Vec::<String>::new());
        let wrong = [
            ("| a | b |\n|---|---|\n| c |\n", "line 3: 2 bars"),
            ("| a | b |\n|---|---|\n| c | `d|e` |\n", "line 3: 4 bars"),
            ("| a | b |\n|---|---|\n| c | d\n", "line 3: 2 bars"),
            ("| a | b |\n|---|---|\n| c | d |\n\n| e | f |\n", "line 5: a row without a head"),
            ("| a | b |\n|---|\n| c | d |\n", "line 2: 2 bars"),
        ];
        for (text, said) in wrong {
            let broken = broken_tables(text);
            assert!(broken.len() == 1 && broken[0].starts_with(said), "{broken:?}");
        }
    }

    #[test]
    fn links_are_found() {
        assert_eq!(links("see [a](b.md) and [c](d#e)."), ["b.md", "d#e"]);
    }
}
