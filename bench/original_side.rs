//! The same work by skrifa's own code.
use crate::outline::autohint::{
    outline::{Direction, Orientation, Outline},
    style::ScriptGroup,
    topo::{compute_segments, link_segments, Axis, Dimension, Segment, TopoFlags},
    QuirksMode,
};
use crate::Move;
use raw::model::glyph::outline::UnscaledOutlineSink;
use raw::tables::glyf::{PointFlags, PointMarker};
use std::hint::black_box;

/// An outline and an axis, made once and used again.
#[derive(Default)]
struct Workspace {
    outline: Outline,
    axis: Axis,
}

fn pair(bytes: &[u8]) -> i32 {
    i16::from_be_bytes([bytes[0], bytes[1]]) as i32
}

fn width_of(record: &[u8]) -> i32 {
    pair(&record[5..])
}

impl Workspace {
    fn draw(&mut self, record: &[u8]) -> u64 {
        let units = pair(&record[3..]);
        let quirks = if record[7] == 0 { QuirksMode::Jit } else { QuirksMode::Aot };
        let points = &record[8..];
        self.outline
            .fill_with(raw::types::GlyphId(0), units, quirks, |sink| {
                let mut open = false;
                for point in points.chunks_exact(5) {
                    let kind = point[4];
                    if !open || kind & 2 != 0 {
                        if open {
                            sink.end_contour();
                        }
                        sink.start_contour();
                        open = true;
                    }
                    let flags = if kind & 1 != 0 { PointFlags::on_curve() } else { PointFlags::off_curve_quad() };
                    sink.point(pair(point), pair(&point[2..]), flags);
                }
                sink.end_contour();
                Ok(0)
            })
            .unwrap();
        black_box(&mut self.outline).points.len() as u64
    }

    fn build_and_link(&mut self, dim: Dimension, width: i32) -> Option<&[Segment]> {
        self.axis.reset(dim, self.outline.orientation);
        if !compute_segments(&mut self.outline, &mut self.axis, ScriptGroup::Default) {
            return None;
        }
        let max_width = if width == 0 { None } else { Some(width) };
        link_segments(&self.outline, &mut self.axis, 0, ScriptGroup::Default, max_width);
        Some(black_box(&mut self.axis).segments.as_slice())
    }

    fn read(&mut self, dim: Dimension, width: i32) -> u64 {
        match self.build_and_link(dim, width) {
            Some(segments) => segments.last().map_or(0, |last| segments.len() as u64 + last.score as u64),
            None => 0,
        }
    }

    fn read_both(&mut self, width: i32) -> u64 {
        self.read(Dimension::Horizontal, width) + self.read(Dimension::Vertical, width)
    }
}

pub fn records(records: &[u8], ends: &[usize], rounds: u32, reads: bool) -> u64 {
    let mut work = Workspace::default();
    let mut sum = 0u64;
    for _ in 0..rounds {
        let mut start = 0;
        for end in ends {
            let record = &records[start..*end];
            sum += work.draw(record);
            if reads {
                sum += work.read_both(width_of(record));
            }
            start = *end;
        }
    }
    sum
}

pub fn readings(record: &[u8], rounds: u32) -> u64 {
    let mut work = Workspace::default();
    let mut sum = work.draw(record);
    for _ in 0..rounds {
        sum += work.read_both(width_of(record));
    }
    sum
}

/// Where a contour's first point stands in a record.
fn contour_starts(record: &[u8]) -> Vec<usize> {
    (8..record.len()).step_by(5).filter(|at| *at == 8 || record[at + 4] & 2 != 0).collect()
}

/// There is no call to move a point: the record is changed, and the outline filled again.
fn move_point(work: &mut Workspace, record: &mut [u8], starts: &[usize], step: &Move) -> u64 {
    let at = starts[step.contour as usize] + 5 * step.point as usize;
    record[at..at + 2].copy_from_slice(&(step.x as i16).to_be_bytes());
    record[at + 2..at + 4].copy_from_slice(&(step.y as i16).to_be_bytes());
    work.draw(record);
    1
}

pub fn moves(record: &[u8], moves: &[Move], rounds: u32, reads: bool) -> u64 {
    let mut record = record.to_vec();
    let starts = contour_starts(&record);
    let mut work = Workspace::default();
    let mut sum = work.draw(&record);
    for _ in 0..rounds {
        for step in moves {
            sum += move_point(&mut work, &mut record, &starts, step);
            if reads {
                sum += work.read_both(width_of(&record));
            }
        }
    }
    sum
}

struct Digest(u64);

impl Digest {
    fn number(&mut self, value: u64) {
        self.0 = (self.0 ^ value).wrapping_mul(0x100000001b3);
    }

    fn signed(&mut self, value: i32) {
        self.number((value + 32768) as u64);
    }

    fn direction(&mut self, dir: Direction) {
        self.number(match dir {
            Direction::None => 0,
            Direction::Right => 1,
            Direction::Left => 2,
            Direction::Up => 3,
            Direction::Down => 4,
        });
    }

    fn index(&mut self, index: Option<u16>) {
        self.number(index.map_or(65536, u64::from));
    }

    /// The Rust swaps the names of the two orientations.
    fn orientation(&mut self, way: Option<Orientation>) {
        self.number(match way {
            None => 0,
            Some(Orientation::CounterClockwise) => 1,
            Some(Orientation::Clockwise) => 2,
        });
    }

    fn points(&mut self, outline: &Outline) {
        for point in &outline.points {
            self.signed(point.fx);
            self.signed(point.fy);
            self.number(point.is_on_curve() as u64);
            self.number(point.flags.has_marker(PointMarker::NEAR) as u64);
            self.number(point.flags.has_marker(PointMarker::WEAK_INTERPOLATION) as u64);
            self.direction(point.in_dir);
            self.direction(point.out_dir);
            self.number(point.next_ix as u64);
            self.number(point.prev_ix as u64);
        }
    }

    /// Every value but the height, which the Rust goes on to adjust.
    fn segments(&mut self, segments: Option<&[Segment]>) {
        let Some(segments) = segments else {
            self.number(17);
            return;
        };
        self.number(segments.len() as u64);
        for segment in segments {
            self.direction(segment.dir);
            self.signed(segment.pos as i32);
            self.signed(segment.delta as i32);
            self.signed(segment.min_coord as i32);
            self.signed(segment.max_coord as i32);
            self.number(segment.flags.contains(TopoFlags::ROUND) as u64);
            self.number(segment.score as u64);
            self.index(segment.link_ix);
            self.index(segment.serif_ix);
            self.number(segment.first_ix as u64);
            self.number(segment.last_ix as u64);
        }
    }
}

pub fn digest(record: &[u8], moves: &[Move]) -> u64 {
    let mut record = record.to_vec();
    let starts = contour_starts(&record);
    let mut work = Workspace::default();
    work.draw(&record);
    for step in moves {
        move_point(&mut work, &mut record, &starts, step);
    }
    let mut digest = Digest(0xcbf29ce484222325);
    digest.orientation(work.outline.orientation);
    digest.points(&work.outline);
    let width = width_of(&record);
    digest.segments(work.build_and_link(Dimension::Horizontal, width));
    digest.segments(work.build_and_link(Dimension::Vertical, width));
    digest.0
}

/// How many segments the two axes have.
pub fn segment_counts(record: &[u8]) -> [usize; 2] {
    let mut work = Workspace::default();
    work.draw(record);
    [Dimension::Horizontal, Dimension::Vertical].map(|dim| work.build_and_link(dim, 0).map_or(0, <[_]>::len))
}
