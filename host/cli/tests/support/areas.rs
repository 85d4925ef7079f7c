//! Where the elements of drawings in SVG lie.

use super::elements::Element;

/// Where an element lies.
#[derive(Clone, Copy, Debug)]
pub struct Area {
    /// From left to right.
    pub x: [f64; 2],
    /// From top to bottom.
    pub y: [f64; 2],
}

impl Area {
    /// What a rectangle takes up.
    pub fn of_rect(rect: &Element) -> Self {
        let [x, y, width, height] =
            ["x", "y", "width", "height"].map(|name| f64::from(rect.number(name)));
        Area {
            x: [x, x + width],
            y: [y, y + height],
        }
    }

    /// About what a text takes up whose letters are of this size.
    fn of_text(text: &Element, size: f64) -> Self {
        let [x, y] = ["x", "y"].map(|name| f64::from(text.number(name)));
        let width = 0.62 * size * text.text.chars().count() as f64;
        let left = match text.attributes["text-anchor"].as_str() {
            "start" => x,
            "middle" => x - width / 2.0,
            _ => x - width,
        };
        Area {
            x: [left, left + width],
            y: [y - 0.75 * size, y + 0.2 * size],
        }
    }

    /// Whether they have a part in common.
    pub fn meets(&self, other: &Area) -> bool {
        let meet = |one: [f64; 2], other: [f64; 2]| one[0] < other[1] && other[0] < one[1];
        meet(self.x, other.x) && meet(self.y, other.y)
    }

    /// Whether the other lies within it.
    pub fn holds(&self, other: &Area) -> bool {
        let hold = |one: [f64; 2], other: [f64; 2]| one[0] <= other[0] && other[1] <= one[1];
        hold(self.x, other.x) && hold(self.y, other.y)
    }
}

/// Where the texts lie; the size of their letters may be that of a group.
pub fn text_areas(elements: &[Element]) -> Vec<Area> {
    let (mut size, mut areas) = (0, Vec::new());
    for element in elements {
        let own = element.attributes.get("font-size");
        let own = own.map(|size| size.parse().unwrap());
        match element.name.as_str() {
            "g" => size = own.unwrap_or(size),
            "text" => areas.push(Area::of_text(element, own.unwrap_or(size).into())),
            _ => {}
        }
    }
    areas
}

/// Asserts that no two of them meet.
pub fn assert_apart(areas: &[Area]) {
    for (number, area) in areas.iter().enumerate() {
        let meets = areas[..number].iter().find(|other| area.meets(other));
        assert!(meets.is_none(), "{area:?} meets {meets:?}");
    }
}

/// The rectangles on the sheet, which is one too.
pub fn rects(elements: &[Element]) -> impl Iterator<Item = &Element> {
    let rects = elements.iter().filter(|element| element.name == "rect");
    rects.skip(1)
}

/// The whole sheet.
pub fn sheet(elements: &[Element]) -> Area {
    let [width, height] = ["width", "height"].map(|name| elements[0].number(name));
    Area {
        x: [0.0, width.into()],
        y: [0.0, height.into()],
    }
}
