//! Quotations between double quotes, and whether they stand in a document.

/// A quotation and where it stands in its text, quotes included.
#[derive(Debug, PartialEq, Eq)]
pub struct Quotation<'a> {
    pub start: usize,
    pub end: usize,
    pub text: &'a str,
}

/// The quotations of a text. A quote opens if it stands at the beginning, after a space or after a parenthesis, and closes elsewhere; so one
/// quotation may hold another. Quotes in code are none, unless the code stands in a quotation. None if a quotation does not end.
pub fn quotations(text: &str) -> Option<Vec<Quotation<'_>>> {
    let mut found = Vec::new();
    let (mut depth, mut start, mut code) = (0, 0, false);
    for (place, letter) in text.char_indices() {
        let opens = text[..place].chars().next_back().is_none_or(|before| before == ' ' || before == '(');
        match letter {
            '`' if depth == 0 => code = !code,
            '"' if code => {}
            '"' if opens => {
                start = if depth == 0 { place } else { start };
                depth += 1;
            }
            '"' => {
                depth -= 1;
                if depth == 0 {
                    found.push(Quotation { start, end: place + 1, text: &text[start + 1..place] });
                }
            }
            _ => {}
        }
        if depth < 0 {
            return None;
        }
    }
    (depth == 0).then_some(found)
}

/// A text without its quotations.
pub fn unquoted(text: &str) -> String {
    let mut rest = String::new();
    let mut after = 0;
    for quotation in quotations(text).unwrap_or_default() {
        rest += &text[after..quotation.start];
        after = quotation.end;
    }
    rest + &text[after..]
}

/// The words of a text with one space between them: without the marks of lists, of stars and of bold letters.
pub fn plain(text: &str) -> String {
    let lines = text.lines().map(|line| line.trim_start().trim_start_matches("- "));
    let words: Vec<String> = lines.flat_map(str::split_whitespace).map(|word| word.replace('*', "")).collect();
    words.join(" ")
}

/// Whether a quotation stands in a document word for word. Three dots part it into pieces that stand in this order.
pub fn stands_in(quotation: &str, document: &str) -> bool {
    let (quotation, document) = (plain(quotation), plain(document));
    let mut rest = &document[..];
    quotation.split("...").map(str::trim).filter(|piece| !piece.is_empty()).all(|piece| match rest.find(piece) {
        Some(place) => {
            rest = &rest[place + piece.len()..];
            true
        }
        None => false,
    })
}

/// The sentences of a document that no quotation has, in whole or in part.
pub fn unquoted_sentences(paragraphs: &[String], quotations: &[String]) -> Vec<String> {
    let pieces: Vec<String> = quotations.iter().flat_map(|text| text.split("...")).map(plain).filter(|piece| !piece.is_empty()).collect();
    let sentences = paragraphs.iter().map(|text| plain(text)).flat_map(|text| text.split_inclusive(". ").map(plain).collect::<Vec<_>>());
    sentences.filter(|sentence| !pieces.iter().any(|piece| piece.contains(&sentence[..]) || sentence.contains(&piece[..]))).collect()
}

#[cfg(test)]
mod tests {
    use super::*;

    #[test]
    fn a_sentence_that_nobody_quotes_is_seen() {
        let paragraphs = ["- Times rise. Births rise, and none is older.", "At most 7."].map(String::from);
        let left = |quotations: &[&str]| unquoted_sentences(&paragraphs, &quotations.iter().map(|text| text.to_string()).collect::<Vec<_>>());
        assert_eq!(left(&["Times rise. Births rise ... older.", "At most 7."]), Vec::<String>::new());
        assert_eq!(left(&["Births rise", "At most 7."]), ["Times rise."]);
        assert_eq!(left(&["Times rise.", "At most 8."]), ["Births rise, and none is older.", "At most 7."]);
    }

    fn texts(text: &str) -> Option<Vec<&str>> {
        quotations(text).map(|found| found.into_iter().map(|quotation| quotation.text).collect())
    }

    #[test]
    fn quotations_may_hold_quotations_and_code() {
        assert_eq!(texts("\"a b\"; (\"c\") d"), Some(vec!["a b", "c"]));
        assert_eq!(texts("\"a, \"b c\" before\" d"), Some(vec!["a, \"b c\" before"]));
        assert_eq!(texts("\"prints `x y` only\""), Some(vec!["prints `x y` only"]));
        assert_eq!(texts("`extern \"C\"` and \"x\""), Some(vec!["x"]));
        assert_eq!(texts("none"), Some(vec![]));
        assert_eq!(unquoted("a \"b\" c \"d\""), "a  c ");
    }

    #[test]
    fn a_quotation_that_does_not_end_is_none() {
        assert_eq!(texts("\"a b"), None);
        assert_eq!(texts("a b\""), None);
    }

    #[test]
    fn an_altered_sentence_is_seen() {
        let document = "Times rise strictly\nfrom record to record.\n- At *most* 65,535 records.\n- Then stop: **no entity**.";
        let same = ["Times rise strictly from record to record.", "record. At most 65,535 records. Then stop: no entity.", "Times rise ... stop"];
        for quotation in same {
            assert!(stands_in(quotation, document), "{quotation}");
        }
        for quotation in ["Times rise from record to record.", "times rise", "At most 65,536 records.", "Then stop ... Times rise", "Times ... never"] {
            assert!(!stands_in(quotation, document), "{quotation}");
        }
    }
}
