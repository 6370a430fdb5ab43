//! Runs skrifa 0.49.0's own outline.rs, unscaled.rs, topo/mod.rs and topo/segments.rs, unchanged
//! (build.sh links them in), over drawing records, and prints every value that they find.
//!
//!   original        < lines of hexadecimal digits   a record each; its text, closed by a line `end`
//!   original --link < tables    a line is `U W major` and, for each entry, `dir pos min max`; prints
//!                               score, link and serif of each entry
#![allow(dead_code, unused_imports)]
include!("original.rs");

use outline::autohint::{
    outline::{Direction, Orientation, Outline},
    style::ScriptGroup,
    topo::{compute_segments, link_segments, Axis, Dimension, Segment, TopoFlags},
    QuirksMode,
};
use raw::model::glyph::outline::UnscaledOutlineSink;
use raw::tables::glyf::{PointFlags, PointMarker};
use std::fmt::Write as _;
use std::io::{BufRead, Write as _};

struct Record {
    upem: i32,
    width: i32,
    quirks: QuirksMode,
    points: Vec<(i32, i32, u8)>,
}

fn parse(line: &str) -> Option<Record> {
    let digits: Vec<u8> = line.bytes().filter(|b| !b.is_ascii_whitespace()).collect();
    if digits.len() % 2 != 0 {
        return None;
    }
    let mut bytes = Vec::with_capacity(digits.len() / 2);
    for pair in digits.chunks(2) {
        bytes.push(u8::from_str_radix(std::str::from_utf8(pair).ok()?, 16).ok()?);
    }
    let at = |i: usize| i16::from_be_bytes([bytes[i], bytes[i + 1]]) as i32;
    if bytes.len() < 8 || (bytes.len() - 8) % 5 != 0 || bytes[7] > 1 {
        return None;
    }
    let mut points = vec![];
    let mut i = 8;
    while i < bytes.len() {
        points.push((at(i), at(i + 2), bytes[i + 4]));
        i += 5;
    }
    Some(Record {
        upem: at(3) & 0xffff,
        width: at(5) & 0xffff,
        quirks: if bytes[7] == 0 { QuirksMode::Jit } else { QuirksMode::Aot },
        points,
    })
}

fn fill(record: &Record, outline: &mut Outline) {
    outline
        .fill_with(raw::types::GlyphId(0), record.upem, record.quirks, |sink| {
            for (ix, (x, y, kind)) in record.points.iter().enumerate() {
                if ix == 0 || kind & 2 != 0 {
                    if ix != 0 {
                        sink.end_contour();
                    }
                    sink.start_contour();
                }
                let flags = if kind & 1 != 0 {
                    PointFlags::on_curve()
                } else {
                    PointFlags::off_curve_quad()
                };
                sink.point(*x, *y, flags);
            }
            sink.end_contour();
            Ok(0)
        })
        .unwrap();
}

fn dir_name(dir: Direction) -> &'static str {
    match dir {
        Direction::None => "none",
        Direction::Right => "right",
        Direction::Left => "left",
        Direction::Up => "up",
        Direction::Down => "down",
    }
}

fn index_name(ix: Option<u16>) -> String {
    ix.map(|ix| ix.to_string()).unwrap_or("-".into())
}

fn print_points(outline: &Outline, out: &mut String) {
    // With y upwards a positive area sum is counterclockwise; the Rust swaps the two names.
    let (name, sign) = match outline.orientation {
        Some(Orientation::Clockwise) => ("CounterClockwise", '+'),
        Some(Orientation::CounterClockwise) => ("Clockwise", '-'),
        None => ("None", '0'),
    };
    let (n, c) = (outline.points.len(), outline.contours.len());
    writeln!(out, "sheet points {n} contours {c} orientation {name} area {sign}").unwrap();
    for (ix, p) in outline.points.iter().enumerate() {
        let _ = writeln!(
            out,
            "P {ix} {} {} {} {}{} in {} out {} next {} prev {}",
            p.fx,
            p.fy,
            if p.is_on_curve() { "on" } else { "off" },
            if p.flags.has_marker(PointMarker::NEAR) { 'N' } else { '-' },
            if p.flags.has_marker(PointMarker::WEAK_INTERPOLATION) { 'W' } else { '-' },
            dir_name(p.in_dir),
            dir_name(p.out_dir),
            p.next_ix,
            p.prev_ix
        );
    }
}

fn print_axis(outline: &mut Outline, width: i32, dim: Dimension, out: &mut String) {
    let name = if dim == Dimension::Horizontal { 'H' } else { 'V' };
    let mut axis = Axis::default();
    axis.reset(dim, outline.orientation);
    if !compute_segments(outline, &mut axis, ScriptGroup::Default) {
        writeln!(out, "{name} answer 17").unwrap();
        return;
    }
    let major = dir_name(axis.major_direction());
    writeln!(out, "{name} answer ok {} major {major}", axis.segments.len()).unwrap();
    for (ix, s) in axis.segments.iter().enumerate() {
        let _ = writeln!(
            out,
            "{name} built {ix} {} first {} last {} pos {} delta {} min {} max {} height {} {} adjusted {}",
            dir_name(s.dir),
            s.first_ix,
            s.last_ix,
            s.pos,
            s.delta,
            s.min_coord,
            s.max_coord,
            s.max_coord as i32 - s.min_coord as i32,
            if s.flags.contains(TopoFlags::ROUND) { 'r' } else { '-' },
            s.height
        );
    }
    let max_width = if width == 0 { None } else { Some(width) };
    link_segments(outline, &mut axis, 0, ScriptGroup::Default, max_width);
    for (ix, s) in axis.segments.iter().enumerate() {
        let (link, serif) = (index_name(s.link_ix), index_name(s.serif_ix));
        writeln!(out, "{name} linked {ix} score {} link {link} serif {serif}", s.score).unwrap();
    }
}

fn dir_of(name: &str) -> Direction {
    match name {
        "right" => Direction::Right,
        "left" => Direction::Left,
        "up" => Direction::Up,
        "down" => Direction::Down,
        _ => Direction::None,
    }
}

/// `link_segments` on a table that no outline made; score 32000 and no links beforehand.
fn link_line(line: &str, out: &mut String) {
    let w: Vec<&str> = line.split_whitespace().collect();
    let mut outline = Outline::default();
    outline.units_per_em = w[0].parse().unwrap();
    let width: i32 = w[1].parse().unwrap();
    let mut axis = Axis::default();
    axis.major_dir = dir_of(w[2]);
    for e in w[3..].chunks(4) {
        axis.segments.push(Segment {
            dir: dir_of(e[0]),
            pos: e[1].parse().unwrap(),
            min_coord: e[2].parse().unwrap(),
            max_coord: e[3].parse().unwrap(),
            score: 32000,
            ..Default::default()
        });
    }
    let max_width = if width == 0 { None } else { Some(width) };
    link_segments(&outline, &mut axis, 0, ScriptGroup::Default, max_width);
    for s in &axis.segments {
        let (link, serif) = (index_name(s.link_ix), index_name(s.serif_ix));
        write!(out, "{} {link} {serif} ", s.score).unwrap();
    }
    out.push('\n');
}

fn main() {
    let args: Vec<String> = std::env::args().collect();
    let lines = std::io::stdin().lock().lines().map(|l| l.unwrap());
    let mode = args.get(1).cloned().unwrap_or_default();
    let mut out = String::new();
    if mode == "--link" {
        for line in lines {
            link_line(&line, &mut out);
        }
        print!("{out}");
        return;
    }
    let stdout = std::io::stdout();
    let mut stdout = stdout.lock();
    for line in lines {
        out.clear();
        match parse(&line) {
            None => out.push_str("unreadable\n"),
            Some(record) => {
                let mut outline = Outline::default();
                fill(&record, &mut outline);
                print_points(&outline, &mut out);
                print_axis(&mut outline, record.width, Dimension::Horizontal, &mut out);
                print_axis(&mut outline, record.width, Dimension::Vertical, &mut out);
            }
        }
        out.push_str("end\n");
        stdout.write_all(out.as_bytes()).unwrap();
    }
}
