//! A checked history as an SVG picture: a lane for each entity, side by side, and a row for each version, time running down.
//!
//! A version has its row alone, with its label in one column to the right of all lanes, and the names of the lanes stand above all rows in a
//! lane's width. So no two labels meet and no line crosses one, whatever the number of records. The width of every text is fixed in the
//! picture, so this does not hang on the reader's fonts.

use std::collections::BTreeMap;

use viewer::{Edge, Record};

use crate::history::{name, History};

/// The width of a character and the height of a line, in pixels.
const CHARACTER: usize = 7;
const LINE: usize = 18;

const MARGIN: usize = 20;
const ROW: usize = 28;
const LEAST_LANE: usize = 48;
const RADIUS: usize = 5;
/// Between a version and its label, and between the names of two lanes.
const GAP: usize = 9;
/// Dependency edges run down beside the lane that they leave.
const ASIDE: usize = 3;
const CORNER: usize = 6;

const STYLE: &str = "\
text { font: 12px monospace; paint-order: stroke; stroke: white; stroke-width: 3px; }
path { fill: none; }
.lane { stroke: #ddd; }
.temporal { stroke: #444; stroke-width: 2; marker-end: url(#temporal); }
.dependency { stroke: #1769aa; stroke-width: 1.5; marker-end: url(#dependency); }
.version { fill: #444; }
.found { fill: #d1332e; }
.ring { fill: none; stroke: #d1332e; stroke-width: 2; }";

/// The picture so far, and how far it reaches to the right.
struct Picture {
    body: String,
    width: usize,
}

impl Picture {
    fn put(&mut self, element: &str) {
        self.body += element;
        self.body += "\n";
    }

    /// A text that starts at a place of its base line.
    fn label(&mut self, class: &str, x: usize, y: usize, text: &str) {
        let length = CHARACTER * text.chars().count();
        self.width = self.width.max(x + length + MARGIN);
        self.put(&format!("<text class='{class}' x='{x}' y='{y}' textLength='{length}' lengthAdjust='spacingAndGlyphs'>{text}</text>"));
    }
}

/// Where the lanes, the column of labels and the rows are.
struct Layout {
    lanes: BTreeMap<u32, usize>,
    labels: usize,
    top: usize,
    bottom: usize,
}

impl Layout {
    fn new(history: &History) -> Layout {
        let mut lanes: BTreeMap<u32, usize> = history.records.iter().map(|record| (record.entity(), 0)).collect();
        let widest = lanes.keys().map(|entity| entity.to_string().len()).max().unwrap_or(0);
        let width = LEAST_LANE.max(CHARACTER * widest + GAP);
        let first = MARGIN + CHARACTER * "entity".len() + GAP;
        lanes.values_mut().enumerate().for_each(|(place, x)| *x = first + width * place);
        let labels = first + width * lanes.len().saturating_sub(1) + 3 * GAP;
        let top = MARGIN + 3 * LINE;
        Layout { lanes, labels, top, bottom: top + ROW * history.records.len() }
    }

    fn lane(&self, record: &Record) -> usize {
        self.lanes[&record.entity()]
    }

    fn row(&self, position: usize) -> usize {
        self.top + ROW * (position + 1)
    }
}

/// The picture of a history below its title.
pub fn picture(title: &str, history: &History) -> String {
    let layout = Layout::new(history);
    let mut picture = Picture { body: String::new(), width: 0 };
    picture.label("title", MARGIN, MARGIN + LINE / 2, title);
    lanes(&mut picture, &layout);
    for (position, record) in history.records.iter().enumerate() {
        for edge in record.edges() {
            picture.put(&path(&layout, history, &edge, position));
        }
    }
    for position in 0..history.records.len() {
        node(&mut picture, &layout, history, position);
    }
    if !history.records.is_empty() {
        legend(&mut picture, layout.bottom + 2 * LINE);
    }
    whole(picture.width, layout.bottom + MARGIN + 5 * LINE, &picture.body)
}

/// What the lines and the ring mean, a line each.
fn legend(picture: &mut Picture, top: usize) {
    let (left, right) = (MARGIN, MARGIN + 24);
    for (place, (class, text)) in [("temporal", "the next version of an entity"), ("dependency", "fed by another entity, with its kind")].iter().enumerate() {
        let y = top + LINE * place;
        picture.put(&format!("<path class='legend {class}' d='M {left} {y} H {right}'/>"));
        picture.label("legend", right + GAP, y + 4, text);
    }
    let y = top + 2 * LINE;
    picture.put(&format!("<circle class='legend ring' cx='{}' cy='{y}' r='{}'/>", (left + right) / 2, RADIUS + 1));
    picture.label("legend", right + GAP, y + 4, "the version found");
}

fn whole(width: usize, height: usize, body: &str) -> String {
    let arrow = |name: &str, colour: &str| {
        format!(
            "<marker id='{name}' viewBox='0 0 8 8' refX='7' refY='4' markerWidth='7' markerHeight='7' markerUnits='userSpaceOnUse' \
             orient='auto'><path d='M 0 0 L 8 4 L 0 8 z' style='fill: {colour}'/></marker>"
        )
    };
    format!(
        "<svg xmlns='http://www.w3.org/2000/svg' width='{width}' height='{height}' viewBox='0 0 {width} {height}'>\n\
         <style>\n{STYLE}\n</style>\n<defs>\n{}\n{}\n</defs>\n<rect width='100%' height='100%' fill='white'/>\n{body}</svg>\n",
        arrow("temporal", "#444"),
        arrow("dependency", "#1769aa")
    )
}

/// The lanes' lines and names.
fn lanes(picture: &mut Picture, layout: &Layout) {
    let line = MARGIN + 2 * LINE;
    if !layout.lanes.is_empty() {
        picture.label("heading", MARGIN, line, "entity");
    }
    for (entity, x) in &layout.lanes {
        picture.put(&format!("<path class='lane' d='M {x} {} V {}'/>", line + GAP, layout.bottom + GAP));
        picture.label("entity", *x, line, &entity.to_string());
    }
}

/// An edge: straight down in one lane; else down beside the lane that it leaves, and across in the row of its end.
fn path(layout: &Layout, history: &History, edge: &Edge, end: usize) -> String {
    let class = if edge.kind.is_some() { "dependency" } else { "temporal" };
    let (from, to) = (layout.lane(&history.records[edge.start]), layout.lane(&history.records[end]));
    let (start, row) = (layout.row(edge.start), layout.row(end));
    let near = RADIUS + 2;
    let way = if from == to {
        format!("M {from} {start} V {}", row - near)
    } else {
        let (side, corner, stop) = if from < to {
            (from + ASIDE, from + ASIDE + CORNER, to - near)
        } else {
            (from - ASIDE, from - ASIDE - CORNER, to + near)
        };
        format!("M {side} {start} V {} Q {side} {row} {corner} {row} H {stop}", row - CORNER)
    };
    format!("<path class='{class}' d='{way}'/>")
}

/// A version's point, and its label in the column of labels.
fn node(picture: &mut Picture, layout: &Layout, history: &History, position: usize) {
    let record = &history.records[position];
    let (x, y) = (layout.lane(record), layout.row(position));
    let mut text = name(record);
    for kind in record.edges().filter_map(|edge| edge.kind) {
        text += &format!(", kind {kind}");
    }
    let found = position == history.found;
    if found {
        picture.put(&format!("<circle class='ring' cx='{x}' cy='{y}' r='{}'/>", RADIUS + 3));
        text += ", found";
    }
    let class = if found { "found" } else { "version" };
    picture.put(&format!("<circle class='{class}' cx='{x}' cy='{y}' r='{RADIUS}'/>"));
    picture.label("name", layout.labels, y + 4, &text);
}

#[cfg(test)]
mod tests {
    use super::*;
    use viewer::Direction;

    fn e(entity: u32, time: u64) -> Record {
        Record::E { entity, time }
    }

    fn v(entity: u32, time: u64, kind: u8, previous: usize, source: usize) -> Record {
        Record::V { entity, time, kind, previous, source }
    }

    fn count(picture: &str, element: &str) -> usize {
        picture.matches(element).count()
    }

    #[test]
    fn every_version_and_edge_is_drawn_once() {
        let records = vec![e(1, 10), e(2, 20), v(2, 30, 7, 1, 0)];
        let drawn = picture("a title", &History::new(Direction::Backward, records));
        assert_eq!(count(&drawn, "<circle class='version'"), 2);
        assert_eq!(count(&drawn, "<circle class='found'"), 1);
        assert_eq!(count(&drawn, "<circle class='ring'"), 1);
        assert_eq!(count(&drawn, "<path class='temporal'"), 1);
        assert_eq!(count(&drawn, "<path class='dependency'"), 1);
        assert_eq!(count(&drawn, "<path class='lane'"), 2);
        assert_eq!(count(&drawn, ">2 at 30, kind 7, found</text>"), 1);
        assert_eq!(count(&drawn, ">a title</text>"), 1);
    }

    #[test]
    fn edges_between_any_lanes_are_drawn() {
        // no log has these edges; a commitment made for them has
        let records = vec![e(9, 10), e(2, 20), v(9, 30, 7, 0, 0), v(2, 40, 7, 2, 1)];
        let drawn = picture("", &History::new(Direction::Backward, records));
        assert_eq!(count(&drawn, "<path class='temporal'") + count(&drawn, "<path class='dependency'"), 4);
    }

    #[test]
    fn without_records_the_title_stands_alone() {
        let drawn = picture("not yet", &History::new(Direction::Backward, Vec::new()));
        assert_eq!((count(&drawn, "<text"), count(&drawn, "<circle")), (1, 0));
    }
}
