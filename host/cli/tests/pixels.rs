//! Planes of pixels: what is printed, and drawings in characters and in SVG, read back.

mod support;

use conformance::pixels::{Plane, Shape};
use conformance::samples::Random;
use std::fs;
use support::elements::{assert_on_sheet, elements, Element, Point};
use support::{folder, hex_list, prints, read_words};

/// Planes of several shapes, each with what is left of it.
fn planes() -> Vec<[Plane; 2]> {
    let mut random = Random::default();
    let mut planes = Vec::new();
    for shape in [(1, 1), (7, 1), (1, 2), (3, 2), (4, 3), (2, 6), (3, 9)] {
        for _ in 0..4 {
            let plane = Plane::any(&mut random, shape);
            let new = plane.despeckled();
            planes.push([plane, new]);
        }
    }
    planes
}

/// What the command prints of a plane, with these options.
fn despeckled(plane: &Plane, options: &[&str]) -> String {
    let [rows, words] = <[usize; 2]>::from(plane.shape()).map(|count| count.to_string());
    let shape = ["despeckle", "--rows", &rows, "--words", &words];
    prints(&[&shape, options, &[&hex_list(&plane.words)]].concat())
}

/// Worked out by hand from request 06 of paper 02.
#[test]
fn rows() {
    let words = "0x1,0x8000000000000000,0x4000000000000005,0x0";
    for (shape, new) in [
        (["2", "2"], "0x1,0x8000000000000000,0x1,0x0"),
        (["4", "1"], "0x0,0x8000000000000000,0x4000000000000000,0x0"),
        (["1", "4"], "0x1,0x8000000000000000,0x0,0x0"),
    ] {
        let [rows, row_words] = shape;
        let args = ["despeckle", "--rows", rows, "--words", row_words, words];
        assert_eq!(prints(&args), format!("{new}\n"));
        // Either number says the other.
        for [option, count] in [["--rows", rows], ["--words", row_words]] {
            assert_eq!(
                prints(&["despeckle", words, option, count]),
                format!("{new}\n")
            );
        }
    }
    let by_rows_of_one = prints(&["despeckle", words, "--words", "1"]);
    assert_eq!(prints(&["despeckle", words]), by_rows_of_one);
}

#[test]
fn what_is_printed_can_be_given_again() {
    for [plane, new] in planes() {
        assert_eq!(read_words(&despeckled(&plane, &[])), new.words);
        assert_eq!(read_words(&despeckled(&new, &[])), new.words);
    }
}

#[test]
fn words_in_one_argument_or_many() {
    let printed = prints(&["despeckle", "3,3,1,0"]);
    assert_eq!(prints(&["despeckle", "3 3 1 0"]), printed);
    assert_eq!(prints(&["despeckle", "3", "0x3", "1", "0"]), printed);
}

#[test]
fn the_words_to_write_into() {
    for [plane, new] in planes() {
        let words = despeckled(&plane, &["--length", "30"]);
        let zeros = vec![0; 30 - new.words.len()];
        assert_eq!(read_words(&words), [&new.words[..], &zeros].concat());
        let out = hex_list(&vec![7; new.words.len() + 2]);
        let words = despeckled(&plane, &["--out", &out]);
        assert_eq!(read_words(&words), [&new.words[..], &[7, 7]].concat());
        // Those past the plane are not drawn.
        let drawn = despeckled(&plane, &["--out", &out, "--text"]);
        assert_eq!(drawn, despeckled(&plane, &["--text"]));
    }
}

/// The plane whose lit pixels are drawn by one of these characters.
fn read_rows(shape: Shape, lines: &[&str], lit: &[char]) -> Plane {
    let mut plane = Plane::dark(shape);
    for (r, line) in lines.iter().enumerate() {
        let words: Vec<&str> = line.split(' ').collect();
        assert_eq!(words.len(), shape.1, "{line}");
        assert!(words.iter().all(|word| word.len() == 64), "{line}");
        for (c, pixel) in words.concat().chars().enumerate() {
            assert!(['.', '#', 'o'].contains(&pixel), "{line}");
            if lit.contains(&pixel) {
                plane.turn_over((r, c));
            }
        }
    }
    plane
}

/// How many pixels are lit.
fn count(plane: &Plane) -> usize {
    plane.places().filter(|&place| plane.is_lit(place)).count()
}

#[test]
fn drawings_in_characters() {
    for [plane, new] in planes() {
        let drawn = despeckled(&plane, &["--text"]);
        let lines: Vec<&str> = drawn.lines().collect();
        let (rows, row_words) = plane.shape();
        assert_eq!(lines.len(), 8 + 2 * rows, "{drawn}");
        let (lit, out) = (count(&plane), count(&plane) - count(&new));
        let plural = |count| if count == 1 { "" } else { "s" };
        let (of_rows, of_words) = (plural(rows), plural(row_words));
        let title = format!("Despeckled, {rows} row{of_rows} of {row_words} word{of_words}");
        let detail = format!("{lit} pixel{} lit, {out} went out", plural(lit));
        assert_eq!(lines[..4], [&title, &detail, "", "before"]);
        assert_eq!(lines[4 + rows..6 + rows], ["", "after"]);
        let legend = "# lit  o went out  . dark";
        assert_eq!(lines[6 + 2 * rows..], ["", legend]);
        let (before, after) = (&lines[4..4 + rows], &lines[6 + rows..6 + 2 * rows]);
        assert_eq!(read_rows(plane.shape(), before, &['#']), plane);
        assert_eq!(read_rows(plane.shape(), after, &['#']), new);
        assert_eq!(read_rows(plane.shape(), after, &['#', 'o']), plane);
        assert!(!before.concat().contains('o'));
    }
}

/// The ground of a picture.
struct Ground {
    left: i32,
    top: i32,
    width: i32,
    height: i32,
}

/// The grounds of both pictures, before and after.
fn grounds(elements: &[Element]) -> [Ground; 2] {
    let is_ground =
        |element: &&Element| element.name == "rect" && element.attributes["fill"] == "#f4f6f9";
    let grounds = elements.iter().filter(is_ground).map(|rect| Ground {
        left: rect.number("x"),
        top: rect.number("y"),
        width: rect.number("width"),
        height: rect.number("height"),
    });
    let grounds: Result<[Ground; 2], _> = Vec::from_iter(grounds).try_into();
    grounds.unwrap_or_else(|_| panic!("two pictures"))
}

/// Where the squares of this class begin.
fn squares<'a>(elements: &'a [Element], class: &'a str) -> impl Iterator<Item = Point> + 'a {
    let paths = elements.iter().filter(move |element| element.is(class));
    let squares = paths.flat_map(Element::blocks);
    squares.map(|square| square.place)
}

/// The plane whose lit pixels are drawn so on this ground, each once.
fn read_squares(shape: Shape, ground: &Ground, points: impl Iterator<Item = Point>) -> Plane {
    let mut plane = Plane::dark(shape);
    let pitch = ground.height / shape.0 as i32;
    assert_eq!(ground.width, pitch * plane.columns() as i32);
    for (x, y) in points {
        let (r, c) = ((y - ground.top) / pitch, (x - ground.left) / pitch);
        let place = (r as usize, c as usize);
        assert!(!plane.is_lit(place));
        plane.turn_over(place);
    }
    plane
}

#[test]
fn drawings_in_svg() {
    for [plane, new] in planes() {
        let elements = elements(&despeckled(&plane, &["--svg", "-"]));
        let [before, after] = grounds(&elements);
        assert!(before.top + before.height < after.top);
        let shape = plane.shape();
        let drawn = |class, above| {
            let points = squares(&elements, class);
            points.filter(move |&(_, y)| (y < after.top) == above)
        };
        assert_eq!(read_squares(shape, &before, drawn("lit", true)), plane);
        assert_eq!(read_squares(shape, &after, drawn("lit", false)), new);
        let both = drawn("lit", false).chain(drawn("out", false));
        assert_eq!(read_squares(shape, &after, both), plane);
        assert_eq!(drawn("out", true).count(), 0);
        let points = ["lit", "out"].map(|class| Vec::from_iter(squares(&elements, class)));
        assert_on_sheet(&elements, points.concat().into_iter());
    }
}

#[test]
fn svg_goes_to_a_file_or_to_the_output() {
    let file = folder("pixels").join("pixels.svg");
    let name = file.to_str().unwrap();
    let words = prints(&["despeckle", "3,0,1"]);
    let drawn = prints(&["despeckle", "3,0,1", "--svg", "-"]);
    assert!(drawn.starts_with("<svg xmlns="));
    assert_eq!(prints(&["despeckle", "3,0,1", "--svg", name]), words);
    assert_eq!(fs::read_to_string(&file).unwrap(), drawn);
    let text = prints(&["despeckle", "3,0,1", "--text"]);
    fs::remove_file(&file).unwrap();
    let both = ["despeckle", "3,0,1", "--text", "--svg", name];
    assert_eq!(prints(&both), text);
    assert_eq!(fs::read_to_string(&file).unwrap(), drawn);
}
