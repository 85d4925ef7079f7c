//! The elements of drawings in SVG, read back.

use std::collections::HashMap;

/// An element: its name, what its attributes are, and what it says.
pub struct Element {
    /// Its name.
    pub name: String,
    /// Its attributes.
    pub attributes: HashMap<String, String>,
    /// The text in it, before any other element.
    pub text: String,
}

/// A point of a drawing.
pub type Point = (i32, i32);

impl Element {
    /// Whether it is of this class.
    pub fn is(&self, class: &str) -> bool {
        self.attributes.get("class").is_some_and(|is| is == class)
    }

    /// An attribute that is a number.
    pub fn number(&self, name: &str) -> i32 {
        self.attributes[name].parse().unwrap()
    }

    /// The lines of a path, each by its points from left to right; those that
    /// only shape a curve are left out.
    pub fn lines(&self) -> Vec<Vec<Point>> {
        let mut lines: Vec<Vec<Point>> = Vec::new();
        let data = &self.attributes["d"];
        let starts = data.match_indices(char::is_alphabetic).map(|(at, _)| at);
        let starts: Vec<usize> = starts.chain([data.len()]).collect();
        for part in starts.windows(2).map(|ends| &data[ends[0]..ends[1]]) {
            let numbers = part[1..].split(' ').map(|number| number.parse().unwrap());
            let numbers: Vec<i32> = numbers.collect();
            match (&part[..1], numbers.as_slice()) {
                ("M", &[x, y]) => lines.push(vec![(x, y)]),
                ("H", &[x]) => {
                    let line = lines.last_mut().unwrap();
                    line.push((x, line[line.len() - 1].1));
                }
                ("C", &[_, _, _, _, x, y]) => lines.last_mut().unwrap().push((x, y)),
                _ => panic!("unknown part {part}"),
            }
        }
        lines
    }

    /// The rectangles of a path, each of which goes right, down, left and back.
    pub fn blocks(&self) -> Vec<Block> {
        let blocks = self.attributes["d"].split('M').skip(1).map(|block| {
            let (place, ways) = block.split_once('h').unwrap();
            let (x, y) = place.split_once(' ').unwrap();
            let (width, ways) = ways.split_once('v').unwrap();
            let (height, back) = ways.split_once("h-").unwrap();
            assert_eq!(back.strip_suffix('z'), Some(width), "{block}");
            let [x, y, width, height] = [x, y, width, height].map(|text| text.parse().unwrap());
            Block {
                place: (x, y),
                size: (width, height),
            }
        });
        blocks.collect()
    }
}

/// A rectangle of a path.
#[derive(Clone, Copy, Debug, PartialEq, Eq)]
pub struct Block {
    /// Its top left.
    pub place: Point,
    /// Its width and height.
    pub size: Point,
}

/// The elements of a drawing, which must be well-formed.
pub fn elements(svg: &str) -> Vec<Element> {
    let (mut elements, mut open) = (Vec::new(), Vec::new());
    for part in svg.split('<').skip(1) {
        let (tag, after) = part.split_once('>').expect("a tag ends");
        assert!(!after.contains(['>', '&']), "{after}");
        if let Some(name) = tag.strip_prefix('/') {
            assert_eq!(open.pop().as_deref(), Some(name));
            continue;
        }
        let (tag, ended) = match tag.strip_suffix('/') {
            Some(tag) => (tag, true),
            None => (tag, false),
        };
        let (name, rest) = tag.split_once(' ').unwrap_or((tag, ""));
        let name = name.to_string();
        if !ended {
            open.push(name.clone());
        }
        let attributes = attributes(rest);
        let text = after.trim().to_string();
        elements.push(Element {
            name,
            attributes,
            text,
        });
    }
    assert!(open.is_empty(), "{open:?}");
    elements
}

/// The attributes of an element, none of which is given twice.
fn attributes(mut text: &str) -> HashMap<String, String> {
    let mut attributes = HashMap::new();
    while !text.is_empty() {
        let (name, rest) = text.split_once("=\"").expect("an attribute");
        let (value, rest) = rest.split_once('"').expect("a value ends");
        let twice = attributes.insert(name.to_string(), value.to_string());
        assert!(twice.is_none(), "{name}");
        text = rest.strip_prefix(' ').unwrap_or(rest);
    }
    attributes
}

/// Asserts that the sheet's size is told, and that these points lie on it with room
/// around, and the texts too.
pub fn assert_on_sheet(elements: &[Element], points: impl Iterator<Item = Point>) {
    let sheet = &elements[0];
    assert_eq!(sheet.name, "svg");
    let (width, height) = (sheet.number("width"), sheet.number("height"));
    assert_eq!(sheet.attributes["viewBox"], format!("0 0 {width} {height}"));
    let texts = elements.iter().filter(|element| element.name == "text");
    let texts = texts.map(|text| (text.number("x"), text.number("y")));
    for (x, y) in points.chain(texts) {
        assert!((20..width - 20).contains(&x) && (20..height - 20).contains(&y));
    }
}
