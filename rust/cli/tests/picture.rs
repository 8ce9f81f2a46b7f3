//! The picture of a checked history: what is drawn, and that no two labels overlap.

mod common;

use common::*;
use reference::log::Record;
use reference::sample::{birth, births, flow, in_turn, log_k, one_source};

/// The space that a label takes, in pixels.
#[derive(Clone, Copy, Debug)]
struct Box {
    left: f64,
    right: f64,
    top: f64,
    bottom: f64,
}

impl Box {
    fn meets(&self, other: &Box) -> bool {
        self.left < other.right && other.left < self.right && self.top < other.bottom && other.top < self.bottom
    }
}

/// A number in an element's attribute.
fn attribute(element: &str, name: &str) -> f64 {
    let start = element.find(&format!(" {name}='")).unwrap_or_else(|| panic!("no {name} in {element}")) + name.len() + 3;
    element[start..].split('\'').next().unwrap().parse().expect("a number")
}

/// The boxes of all texts. A text of 12 pixels reaches 12 above its base line and 4 below.
fn boxes(picture: &str) -> Vec<Box> {
    assert!(picture.contains("text { font: 12px "));
    let texts = picture.lines().filter(|line| line.starts_with("<text "));
    let place = |text: &str| {
        let (x, y) = (attribute(text, "x"), attribute(text, "y"));
        Box { left: x, right: x + attribute(text, "textLength"), top: y - 12.0, bottom: y + 4.0 }
    };
    texts.map(place).collect()
}

/// The first two labels that overlap.
fn overlap(boxes: &[Box]) -> Option<(Box, Box)> {
    let pairs = boxes.iter().enumerate().flat_map(|(place, one)| boxes[..place].iter().map(move |other| (*one, *other)));
    pairs.into_iter().find(|(one, other)| one.meets(other))
}

fn count(picture: &str, element: &str) -> usize {
    picture.matches(element).count()
}

/// The picture of a question, after looking at everything that holds of every picture.
fn drawn(records: &[Record], direction: u8, entity: u32, time: u64, lanes: usize, versions: usize) -> String {
    let log = Logged::new(records);
    let (d, e, t) = (direction.to_string(), entity.to_string(), time.to_string());
    let picture = run_on(&log.answer(direction, entity, time), &["show", &log.hex(), &d, &e, &t, "-", "--svg", "-"]).good();
    let picture = String::from_utf8(picture).unwrap();
    assert_eq!(count(&picture, "<circle class='version'"), versions - 1);
    assert_eq!(count(&picture, "<circle class='found'"), 1);
    assert_eq!(count(&picture, "<path class='lane'"), lanes);
    let boxes = boxes(&picture);
    assert_eq!(boxes.len(), 5 + lanes + versions);
    assert!(nothing_crosses(&picture), "{picture}");
    assert!(overlap(&boxes).is_none(), "{:?}", overlap(&boxes));
    let (width, height) = (attribute(&picture, "width"), attribute(&picture, "height"));
    assert!(boxes.iter().all(|label| label.left >= 0.0 && label.top >= 0.0 && label.right <= width && label.bottom <= height));
    // nobody measures labels that are empty, or wider by half than their letters need at 12 pixels
    for text in picture.lines().filter(|line| line.starts_with("<text ")) {
        let letters = text.split('>').nth(1).unwrap().split('<').next().unwrap().len() as f64;
        assert!(letters > 0.0 && (6.0..=9.0).contains(&(attribute(text, "textLength") / letters)), "{text}");
    }
    picture
}

/// Every version's label stands to the right of all that is drawn in the lanes.
fn nothing_crosses(picture: &str) -> bool {
    let of_class = |class: &str| {
        let start = format!("class='{class}'");
        picture.lines().filter(move |line| line.contains(&start)).map(str::to_string).collect::<Vec<_>>()
    };
    let numbers = |path: &String| -> Vec<f64> {
        let way = path.split(" d='").nth(1).unwrap().split('\'').next().unwrap();
        let words: Vec<&str> = way.split(' ').collect();
        // what follows V is a height, all else begins with a place from the left
        let from_left = words.windows(2).filter(|pair| ["M", "H", "Q"].contains(&pair[0])).map(|pair| pair[1].parse().unwrap());
        from_left.collect()
    };
    let reach = ["lane", "temporal", "dependency"].iter().flat_map(|class| of_class(class)).flat_map(|path| numbers(&path)).fold(0.0, f64::max);
    of_class("name").iter().all(|label| attribute(label, "x") > reach + 5.0)
}

#[test]
fn a_crossed_label_is_noticed() {
    let label = "<text class='name' x='40' y='10'>1 at 1</text>";
    assert!(nothing_crosses(&format!("<path class='lane' d='M 30 0 V 90'/>\n{label}")));
    assert!(!nothing_crosses(&format!("<path class='dependency' d='M 30 0 V 90 Q 30 96 36 96 H 80'/>\n{label}")));
}

#[test]
fn overlapping_labels_are_noticed() {
    let one = Box { left: 0.0, right: 10.0, top: 0.0, bottom: 10.0 };
    assert!(overlap(&[one, Box { left: 9.0, right: 19.0, ..one }]).is_some());
    assert!(overlap(&[one, Box { left: 9.0, right: 19.0, top: 9.0, bottom: 19.0 }]).is_some());
    assert!(overlap(&[one, Box { left: 10.0, right: 20.0, ..one }]).is_none());
}

#[test]
fn three_records() {
    let backward = drawn(&log_k(), 1, 2, 35, 2, 3);
    assert_eq!((count(&backward, "<path class='temporal'"), count(&backward, "<path class='dependency'")), (1, 1));
    assert_eq!(count(&backward, ">2 at 30, kind 7, found</text>"), 1);
    assert_eq!(count(&backward, ">2 at 35, backward: found 2 at 30, 3 records</text>"), 1);
    let forward = drawn(&log_k(), 2, 2, 20, 2, 3);
    assert_eq!((count(&forward, "<path class='temporal'"), count(&forward, "<path class='dependency'")), (1, 1));
    assert_eq!(count(&forward, ">2 at 20, found</text>"), 1);
}

#[test]
fn looking_ahead() {
    let backward = drawn(&log_k(), 4, 2, 21, 2, 3);
    assert_eq!(count(&backward, ">2 at 30, kind 7, found</text>"), 1);
    assert_eq!(count(&backward, ">2 at or after 21, backward: found 2 at 30, 3 records</text>"), 1);
    let forward = drawn(&log_k(), 5, 2, 21, 2, 2);
    assert_eq!(count(&forward, ">2 at 30, found</text>"), 1);
    assert_eq!(count(&forward, ">2 at or after 21, forward: found 2 at 30, 2 records</text>"), 1);
}

#[test]
fn three_records_with_the_greatest_numbers() {
    let (entity, time) = (u32::MAX, u64::MAX);
    drawn(&[birth(entity - 1, 0), birth(entity, time - 1), flow(entity - 1, entity, 255, time)], 1, entity, time, 2, 3);
}

#[test]
fn three_hundred_records_in_two_lanes() {
    let picture = drawn(&in_turn(300), 1, 0, 299, 2, 300);
    assert_eq!((count(&picture, "<path class='temporal'"), count(&picture, "<path class='dependency'")), (298, 298));
    drawn(&one_source(300), 2, 0, 0, 2, 299);
}

#[test]
fn three_hundred_records_in_many_lanes() {
    // 150 entities with long numbers, and a flow from each to the next
    let entity = |n: usize| u32::MAX - 150 + n as u32;
    let time = |n: usize| u64::MAX - 300 + n as u64;
    let born = (0..151).map(|n| birth(entity(n), time(n)));
    let flows = (0..149).map(|n| flow(entity(n), entity(n + 1), 200, time(151 + n)));
    let records: Vec<Record> = born.chain(flows).collect();
    assert_eq!(records.len(), 300);
    drawn(&records, 1, entity(149), u64::MAX, 150, 299);
    drawn(&records, 2, entity(0), time(0), 150, 150);
}

#[test]
fn a_file_beside_the_text() {
    let folder = Folder::new("picture_file");
    let k = Logged::k();
    let shown = run_on(&k.answer(1, 2, 35), &["show", &k.hex(), "1", "2", "35", "-", "--svg", &folder.path("k.svg")]).good();
    assert!(shown.starts_with(b"found 2 at 30, 3 records\n0: 1 at 10, birth\n"));
    assert_eq!(folder.read("k.svg"), drawn(&log_k(), 1, 2, 35, 2, 3).as_bytes());
}

#[test]
fn nothing_found_is_a_title_alone() {
    let log = Logged::new(&births(2));
    for (direction, entity, time, title) in [
        (1, 7, 7, "7 at 7, backward: no entity"),
        (2, 1, 0, "1 at 0, forward: not yet: the first version of 1 is at 1"),
        (5, 0, 1, "0 at or after 1, forward: none so late: the last version of 0 is at 0"),
    ] {
        let (d, e, t) = (direction.to_string(), entity.to_string(), time.to_string());
        let picture = run_on(&log.answer(direction, entity, time), &["show", &log.hex(), &d, &e, &t, "-", "--svg", "-"]).good();
        let picture = String::from_utf8(picture).unwrap();
        assert_eq!(boxes(&picture).len(), 1);
        assert_eq!(count(&picture, &format!(">{title}</text>")), 1, "{picture}");
    }
}
