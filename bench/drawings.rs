//! Records: read from files, and made for the cases that no glyph is large enough for.
use crate::Move;

/// x, y and kind (1 on the curve, 2 a contour's start), as a record has them.
type Point = (i32, i32, u8);

pub fn record(units: u16, width: u16, aot: bool, points: &[Point]) -> Vec<u8> {
    let length = (points.len() * 5 + 5) as u16;
    let mut bytes = vec![1];
    bytes.extend(length.to_be_bytes());
    bytes.extend(units.to_be_bytes());
    bytes.extend(width.to_be_bytes());
    bytes.push(aot as u8);
    for (x, y, kind) in points {
        bytes.extend((*x as i16).to_be_bytes());
        bytes.extend((*y as i16).to_be_bytes());
        bytes.push(*kind);
    }
    bytes
}

/// The records of a file: lines of hexadecimal digits, with or without the word `record` before
/// them; other lines are passed over.
pub fn read_records(path: &str) -> Vec<Vec<u8>> {
    let text = std::fs::read_to_string(path).unwrap_or_else(|e| panic!("{path}: {e}"));
    let digits = |line: &str| {
        let line = line.strip_prefix("record ").unwrap_or(line).as_bytes();
        let pairs = line.chunks(2).map(|pair| u8::from_str_radix(std::str::from_utf8(pair).ok()?, 16).ok());
        if line.len() % 2 == 0 { pairs.collect::<Option<Vec<u8>>>() } else { None }
    };
    text.lines().filter_map(digits).filter(|bytes| bytes.len() > 8).collect()
}

/// 2,048 points in four toothed rings, a third of them controls.
pub fn rings() -> Vec<u8> {
    let mut points = vec![];
    for ring in 0..4 {
        let (cx, cy) = (ring % 2 * 14000 - 7000, ring / 2 * 14000 - 7000);
        for i in 0..512 {
            let angle = i as f64 * std::f64::consts::TAU / 512.0;
            let radius = if i % 16 < 8 { 6000.0 } else { 5000.0 };
            let x = cx + (radius * angle.cos()) as i32;
            let y = cy + (radius * angle.sin()) as i32;
            points.push((x, y, (i % 3 != 1) as u8 + 2 * (i == 0) as u8));
        }
    }
    record(2048, 150, false, &points)
}

/// One contour of 2,000 points that turns at each: 1,000 segments on either axis, half of them each
/// way (less those few at the end that the closing step takes).
pub fn zigzag() -> Vec<u8> {
    let mut seed = 1u32;
    let mut next = |below: i32| {
        seed = seed.wrapping_mul(1664525).wrapping_add(1013904223);
        (seed >> 8) as i32 % below
    };
    // back from the edge, and any way elsewhere
    let mut step = |from: i32| {
        let length = 40 + next(2000);
        let down = next(2) == 0;
        if from + length > 16000 || (down && from - length >= -16000) { -length } else { length }
    };
    let (mut x, mut y) = (0, 0);
    let mut points = vec![];
    for i in 0..2000 {
        points.push((x, y, 1 + 2 * (i == 0) as u8));
        if i % 2 == 0 { x += step(x) } else { y += step(y) }
    }
    record(1000, 100, false, &points)
}

/// A letter I of 16 points, with two curved corners.
const LETTER: [Point; 16] = [
    (0, 0, 3), (600, 0, 1), (600, 100, 1), (440, 100, 1), (400, 100, 0), (400, 140, 1), (400, 900, 1),
    (600, 900, 1), (600, 1000, 1), (0, 1000, 1), (0, 900, 1), (200, 900, 1), (200, 140, 1), (200, 100, 0),
    (160, 100, 1), (0, 100, 1),
];

/// Where a point of a page's letter lies.
fn on_page(contour: usize, point: usize) -> Point {
    let (x, y, kind) = LETTER[point];
    let (column, row) = (contour as i32 % 16, contour as i32 / 16);
    (x + 2000 * column - 16000, y + 3000 * row - 12000, kind)
}

/// 128 contours of 16 points.
pub fn page() -> Vec<u8> {
    let points: Vec<Point> = (0..2048).map(|i| on_page(i / 16, i % 16)).collect();
    record(1000, 200, false, &points)
}

/// Moves about the page: every contour once, each by a few units from where the point lay.
pub fn page_moves() -> Vec<Move> {
    (0..128)
        .map(|i| {
            let (contour, point) = (i * 37 % 128, i % 16);
            let (x, y, _) = on_page(contour, point);
            let by = i as i32 % 5 * 7 - 14;
            Move { contour: contour as u32, point: point as u32, x: x + by, y: y - by }
        })
        .collect()
}
