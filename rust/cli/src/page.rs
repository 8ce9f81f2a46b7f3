//! A checked history as one page for a browser, which needs nothing from outside.

use viewer::{Question, Record, Way};

use crate::asked::Asked;
use crate::history::History;
use crate::json;
use crate::names::Names;

const PAGE: &str = include_str!("page.html");

/// What stands at the head of a page.
pub struct Head<'a> {
    pub question: &'a Question,
    pub verdict: &'a str,
    pub commitment: &'a str,
}

pub fn page(head: &Head, history: &History, names: Option<&Names>) -> String {
    let title = format!("{}: {}", Asked::One(*head.question), head.verdict);
    PAGE.replacen("@TITLE@", &title, 1).replacen("@DATA@", &data(head, history, names), 1)
}

/// The records column by column; a place is -1 where there is no such edge. Times are texts, because a browser's numbers have 53 bits.
fn data(head: &Head, history: &History, names: Option<&Names>) -> String {
    let column = |of: fn(&Record) -> String| json::list(history.records.iter().map(of));
    let way = if head.question.direction.way() == Some(Way::Forward) { "forward" } else { "backward" };
    let mut fields = vec![
        ("asked", json::text(&Asked::One(*head.question).to_string())),
        ("verdict", json::text(head.verdict)),
        ("commitment", json::text(head.commitment)),
        ("way", json::text(way)),
        ("found", if history.records.is_empty() { "-1".to_string() } else { history.found.to_string() }),
        ("entity", column(|record| record.entity().to_string())),
        ("time", column(|record| json::text(&record.time().to_string()))),
        ("previous", column(|record| start(record, false))),
        ("source", column(|record| start(record, true))),
        ("kind", column(|record| record.edges().find_map(|edge| edge.kind).unwrap_or(0).to_string())),
    ];
    fields.extend(names.map(|names| ("names", names.json())));
    json::object(fields)
}

fn start(record: &Record, dependency: bool) -> String {
    record.edges().find(|edge| edge.kind.is_some() == dependency).map_or("-1".to_string(), |edge| edge.start.to_string())
}

#[cfg(test)]
mod tests {
    use super::*;
    use viewer::Direction;

    fn shown(names: Option<&Names>) -> String {
        let question = Question { direction: Direction::Backward, entity: 2, time: 35 };
        let records = vec![
            Record::E { entity: 1, time: 10 },
            Record::E { entity: 2, time: 20 },
            Record::V { entity: 2, time: u64::MAX, kind: 7, previous: 1, source: 0 },
        ];
        let head = Head { question: &question, verdict: "found </script>", commitment: "00ff" };
        page(&head, &History::new(Direction::Backward, records), names)
    }

    #[test]
    fn the_records_stand_in_columns() {
        let page = shown(None);
        let data = concat!(
            r#"{"asked":"2 at 35, backward","verdict":"found \u003c/script>","commitment":"00ff","way":"backward","found":2,"#,
            r#""entity":[1,2,2],"time":["10","20","18446744073709551615"],"previous":[-1,-1,1],"source":[-1,-1,0],"kind":[0,0,7]}"#
        );
        assert!(page.contains(&format!("<script type=\"application/json\" id=\"data\">{data}</script>")), "{page}");
    }

    #[test]
    fn a_page_says_its_question_and_its_way() {
        for (direction, asked, way) in [
            (Direction::Forward, "2 at 21, forward", "forward"),
            (Direction::BackwardAfter, "2 at or after 21, backward", "backward"),
            (Direction::ForwardAfter, "2 at or after 21, forward", "forward"),
        ] {
            let question = Question { direction, entity: 2, time: 21 };
            let page = page(&Head { question: &question, verdict: "said", commitment: "00" }, &History::new(direction, Vec::new()), None);
            assert!(page.contains(&format!("<title>{asked}: said</title>")), "{page}");
            assert!(page.contains(&format!("{{\"asked\":\"{asked}\"")) && page.contains(&format!("\"way\":\"{way}\"")), "{page}");
        }
    }

    #[test]
    fn nothing_comes_from_outside() {
        let page = shown(Some(&Names::default()));
        for word in ["src=", "href=\"http", "@import", "url(", "fetch(", "@TITLE@", "@DATA@"] {
            assert!(!page.contains(word), "{word}");
        }
        assert!(page.contains(r#","names":{"entity":{},"kind":{},"time":""}}"#));
    }
}
