//! The job of plain.rs in threads that stream: each takes the next piece of the wanted rows, reads only the bytes that
//! these rows need, neighbouring ones in one read, makes their lines, and writes them when the pieces before are written.
//! Nothing is kept of a piece. Kept are the request, the values of dictionaries, and where every so many texts begin.

use crate::columns::{Column, Values};
use crate::requests::{Child, Dtype, Expression, Kind, Node, Operator, Request};
use std::collections::HashMap;
use std::fs::File;
use std::io::{self, Write};
use std::ops::Range;
use std::os::unix::fs::FileExt;
use std::sync::atomic::{AtomicUsize, Ordering};
use std::sync::{Condvar, Mutex, OnceLock};
use std::thread;

/// At most so many values make a piece, and at least so many rows of many columns.
const PIECE_VALUES: u64 = 16_384;
const PIECE_ROWS: u64 = 1024;
/// Bytes that lie no further apart are read together.
const GAP: u64 = 4096;
/// The place of every so many texts of a segment is kept.
const STEP: u64 = 1024;

/// An expression whose columns are nodes.
enum Shape {
    Node(u32),
    Number(i64),
    Pack(Vec<(String, Shape)>),
    Two(Operator, Box<[Shape; 2]>),
}

struct Scan<'a> {
    segments: &'a File,
    request: &'a Request,
    shape: Shape,
    /// The values of each dictionary, by its node.
    dictionaries: HashMap<u32, Column<'static>>,
    /// Where in the file every so many texts of a flat of texts begin, and where the last one ends.
    places: HashMap<u32, OnceLock<Option<Vec<u64>>>>,
}

/// Parts of the file, each with its place.
struct Fetched {
    parts: Vec<(u64, Vec<u8>)>,
}

impl Fetched {
    fn read(file: &File, mut wanted: Vec<Range<u64>>) -> Option<Fetched> {
        wanted.sort_unstable_by_key(|range| range.start);
        let mut joined: Vec<Range<u64>> = Vec::new();
        for range in wanted {
            match joined.last_mut() {
                Some(last) if range.start <= last.end + GAP => last.end = last.end.max(range.end),
                _ => joined.push(range),
            }
        }
        let parts = joined.into_iter().map(|range| Some((range.start, bytes_at(file, &range)?)));
        Some(Fetched { parts: parts.collect::<Option<_>>()? })
    }

    fn get(&self, range: &Range<u64>) -> &[u8] {
        if range.is_empty() {
            return &[];
        }
        let (start, bytes) = &self.parts[self.parts.partition_point(|(start, _)| *start <= range.start) - 1];
        &bytes[(range.start - start) as usize..(range.end - start) as usize]
    }
}

fn bytes_at(file: &File, range: &Range<u64>) -> Option<Vec<u8>> {
    let mut bytes = vec![0; (range.end - range.start) as usize];
    file.read_exact_at(&mut bytes, range.start).ok()?;
    Some(bytes)
}

impl<'a> Scan<'a> {
    fn new(segments: &'a File, request: &'a Request) -> Option<Scan<'a>> {
        let (dictionaries, places) = (HashMap::new(), HashMap::new());
        let mut scan = Scan { segments, request, shape: Shape::Number(0), dictionaries, places };
        scan.shape = scan.shape_of(&request.projection)?;
        for (number, node) in request.nodes.iter().enumerate() {
            if node.kind == Kind::Flat && node.dtype == Dtype::Texts {
                scan.places.insert(number as u32, OnceLock::new());
            }
        }
        for (number, node) in request.nodes.iter().enumerate().filter(|(_, node)| node.kind == Kind::Dict) {
            let values = scan.children(node).first()?.node;
            let rows = 0..request.nodes[values as usize].rows;
            let mut wanted = Vec::new();
            scan.want(values, rows.clone(), &mut wanted)?;
            let fetched = Box::leak(Box::new(Fetched::read(segments, wanted)?));
            let mut column = scan.empty(values);
            scan.append(values, rows, fetched, &mut column)?;
            scan.dictionaries.insert(number as u32, column);
        }
        Some(scan)
    }

    fn children(&self, node: &Node) -> &'a [Child] {
        &self.request.children[node.children.start as usize..node.children.end as usize]
    }

    fn names(&self, node: &Node) -> &'a [String] {
        &self.request.names[node.names.start as usize..node.names.end as usize]
    }

    fn shape_of(&self, expression: &Expression) -> Option<Shape> {
        Some(match expression {
            Expression::Root => Shape::Node(0),
            Expression::Number(number) => Shape::Number(*number),
            Expression::Get(name, of) => {
                matches!(**of, Expression::Root).then_some(())?;
                let root = &self.request.nodes[0];
                let place = self.names(root).iter().position(|other| other == name)?;
                Shape::Node(self.children(root).get(place)?.node)
            }
            Expression::Pack(fields) => {
                let shapes = fields.iter().map(|(name, field)| Some((name.clone(), self.shape_of(field)?)));
                Shape::Pack(shapes.collect::<Option<_>>()?)
            }
            Expression::Two(operator, parts) => {
                Shape::Two(*operator, Box::new([self.shape_of(&parts[0])?, self.shape_of(&parts[1])?]))
            }
        })
    }

    /// Where the bytes of some rows of a flat lie: their validity, their numbers, bits or lengths, and their texts.
    fn parts(&self, number: u32, rows: &Range<u64>) -> Option<[Range<u64>; 3]> {
        let node = &self.request.nodes[number as usize];
        let (start, length) = *self.request.locations.get(node.segment as usize)?;
        let bits = |from: u64| from + rows.start / 8..from + rows.end.div_ceil(8);
        let validity = if node.nullable { bits(start) } else { 0..0 };
        let first = if node.nullable { node.rows.div_ceil(8) } else { 0 };
        let body = start + first;
        Some(match node.dtype {
            Dtype::Truths if length == first + node.rows.div_ceil(8) => [validity, bits(body), 0..0],
            Dtype::Numbers(width) if length == first + u64::from(width) * node.rows => {
                [validity, body + u64::from(width) * rows.start..body + u64::from(width) * rows.end, 0..0]
            }
            Dtype::Texts => {
                let places = self.places.get(&number)?.get_or_init(|| self.text_places(node, body, start + length)).as_ref()?;
                let (from, to) = (rows.start / STEP, rows.end.div_ceil(STEP));
                let lengths = body + 4 * from * STEP..body + 4 * node.rows.min(to * STEP);
                [validity, lengths, places[from as usize]..places[to as usize]]
            }
            _ => return None,
        })
    }

    /// Where every so many texts begin whose lengths lie here; the last one must end where the segment does.
    fn text_places(&self, node: &Node, body: u64, end: u64) -> Option<Vec<u64>> {
        let (mut places, mut place) = (Vec::new(), body + 4 * node.rows);
        for first in (0..node.rows).step_by(64 * STEP as usize) {
            let last = node.rows.min(first + 64 * STEP);
            let lengths = bytes_at(self.segments, &(body + 4 * first..body + 4 * last))?;
            for block in lengths.chunks(4 * STEP as usize) {
                places.push(place);
                place += block.chunks_exact(4).map(|length| u64::from(u32::from_le_bytes(length.try_into().unwrap()))).sum::<u64>();
            }
        }
        places.push(place);
        (place == end).then_some(places)
    }

    /// The chunks that have rows of a range, and which of their rows.
    fn chunks(&self, node: &Node, rows: Range<u64>) -> impl Iterator<Item = (u32, Range<u64>)> + 'a {
        let (nodes, children) = (&self.request.nodes, self.children(node));
        let first = children.partition_point(|child| child.start <= rows.start) - 1;
        let inside = children[first..].iter().take_while(move |child| child.start < rows.end);
        inside.map(move |child| {
            let count = nodes[child.node as usize].rows;
            (child.node, rows.start.max(child.start) - child.start..count.min(rows.end - child.start))
        })
    }

    /// Adds the bytes that some rows of a node need.
    fn want(&self, number: u32, rows: Range<u64>, wanted: &mut Vec<Range<u64>>) -> Option<()> {
        let node = &self.request.nodes[number as usize];
        match node.kind {
            Kind::Flat => wanted.extend(self.parts(number, &rows)?.into_iter().filter(|range| !range.is_empty())),
            Kind::Chunked => {
                for (child, inside) in self.chunks(node, rows) {
                    self.want(child, inside, wanted)?;
                }
            }
            Kind::Struct => {
                for child in self.children(node) {
                    self.want(child.node, rows.clone(), wanted)?;
                }
            }
            Kind::Dict => self.want(self.children(node).get(1)?.node, rows, wanted)?,
        }
        Some(())
    }

    /// A column of a node without rows.
    fn empty<'s>(&self, number: u32) -> Column<'s> {
        let node = &self.request.nodes[number as usize];
        let mut column = Column::empty(node.dtype, node.nullable);
        if let Values::Struct(fields) = &mut column.values {
            let children = self.names(node).iter().zip(self.children(node));
            fields.extend(children.map(|(name, child)| (name.clone(), self.empty(child.node))));
        }
        column
    }

    /// Appends some rows of a node, whose bytes are there.
    fn append<'s>(&self, number: u32, rows: Range<u64>, fetched: &'s Fetched, column: &mut Column<'s>) -> Option<()> {
        let node = &self.request.nodes[number as usize];
        match node.kind {
            Kind::Flat => self.append_flat(number, &rows, fetched, column),
            Kind::Chunked => self.chunks(node, rows).try_for_each(|(child, inside)| self.append(child, inside, fetched, column)),
            Kind::Struct => {
                let Values::Struct(fields) = &mut column.values else { return None };
                let mut both = fields.iter_mut().zip(self.children(node));
                both.try_for_each(|((_, field), child)| self.append(child.node, rows.clone(), fetched, field))
            }
            Kind::Dict => {
                let codes = self.children(node).get(1)?.node;
                let mut places = self.empty(codes);
                self.append(codes, rows, fetched, &mut places)?;
                column.extend(Column::looked_up(&places, self.dictionaries.get(&number)?)?)
            }
        }
    }

    fn append_flat<'s>(&self, number: u32, rows: &Range<u64>, fetched: &'s Fetched, column: &mut Column<'s>) -> Option<()> {
        let [validity, body, texts] = self.parts(number, rows)?;
        let bytes = fetched.get(&body);
        match self.request.nodes[number as usize].dtype {
            Dtype::Numbers(width) => column.append_numbers(width, bytes)?,
            Dtype::Truths => column.append_truths(rows, bytes)?,
            Dtype::Texts => {
                let all = std::str::from_utf8(fetched.get(&texts)).ok()?;
                let passed = (rows.start % STEP) as usize;
                column.append_texts(passed, &bytes[..4 * (passed + (rows.end - rows.start) as usize)], all)?
            }
            Dtype::Struct => return None,
        }
        column.append_valid(rows, fetched.get(&validity))
    }

    /// Adds the nodes of a shape, each as often as it stands there.
    fn add_nodes(shape: &Shape, nodes: &mut Vec<u32>) {
        match shape {
            Shape::Node(node) => nodes.push(*node),
            Shape::Number(_) => {}
            Shape::Pack(fields) => fields.iter().for_each(|(_, field)| Self::add_nodes(field, nodes)),
            Shape::Two(_, parts) => parts.iter().for_each(|part| Self::add_nodes(part, nodes)),
        }
    }

    fn column<'s>(&'s self, shape: &Shape, rows: &[Range<u64>], fetched: &'s Fetched) -> Option<Column<'s>> {
        Some(match shape {
            Shape::Node(node) => {
                let mut column = self.empty(*node);
                rows.iter().try_for_each(|range| self.append(*node, range.clone(), fetched, &mut column))?;
                column
            }
            Shape::Number(number) => Column { values: Values::Numbers(vec![*number; count(rows)]), valid: None },
            Shape::Pack(fields) => {
                let columns = fields.iter().map(|(name, field)| Some((name.clone(), self.column(field, rows, fetched)?)));
                Column { values: Values::Struct(columns.collect::<Option<_>>()?), valid: None }
            }
            Shape::Two(operator, parts) => {
                let [left, right] = [self.column(&parts[0], rows, fetched)?, self.column(&parts[1], rows, fetched)?];
                Column::of_two(*operator, &left, &right)?
            }
        })
    }

    /// The lines of some rows.
    fn lines(&self, nodes: &[u32], rows: &[Range<u64>]) -> Option<Vec<u8>> {
        let mut wanted = Vec::new();
        for (node, range) in nodes.iter().flat_map(|node| rows.iter().map(move |range| (node, range))) {
            self.want(*node, range.clone(), &mut wanted)?;
        }
        let fetched = Fetched::read(self.segments, wanted)?;
        let column = self.column(&self.shape, rows, &fetched)?;
        let mut lines = Vec::new();
        for row in 0..count(rows) {
            column.append_row(row, &mut lines);
            lines.push(b'\n');
        }
        Some(lines)
    }
}

fn count(rows: &[Range<u64>]) -> usize {
    rows.iter().map(|range| (range.end - range.start) as usize).sum()
}

/// The wanted rows in pieces of at most so many rows, each in ranges that ascend.
fn piece(request: &Request, size: u64, place: usize) -> Vec<Range<u64>> {
    let start = place as u64 * size;
    match &request.indices {
        None => vec![start..request.nodes[0].rows.min(start + size)],
        Some(rows) => rows.chunks(size as usize).nth(place).unwrap_or(&[]).iter().map(|row| *row..row + 1).collect(),
    }
}

/// Prints the wanted rows of a file; nothing if the request or the file isn't as it should be.
pub fn scan(segments: &File, request: &Request, threads: usize) -> Option<()> {
    let scan = Scan::new(segments, request)?;
    let mut nodes = Vec::new();
    Scan::add_nodes(&scan.shape, &mut nodes);
    let columns = nodes.iter().map(|node| scan.names(&request.nodes[*node as usize]).len().max(1)).sum::<usize>() as u64;
    let rows = request.indices.as_ref().map_or(request.nodes[0].rows, |rows| rows.len() as u64);
    let size = (PIECE_VALUES / columns.max(1)).max(PIECE_ROWS).min(rows.div_ceil(4 * threads as u64)).max(1);
    let pieces = rows.div_ceil(size) as usize;
    let (next, turn, written) = (AtomicUsize::new(0), Mutex::new((0, true)), Condvar::new());
    thread::scope(|scope| {
        for _ in 0..threads {
            scope.spawn(|| loop {
                let place = next.fetch_add(1, Ordering::Relaxed);
                if place >= pieces {
                    return;
                }
                let lines = scan.lines(&nodes, &piece(request, size, place));
                let mut state = written.wait_while(turn.lock().unwrap(), |state| state.0 != place).unwrap();
                let done = lines.is_some_and(|lines| io::stdout().write_all(&lines).is_ok());
                *state = (place + 1, state.1 && done);
                written.notify_all();
            });
        }
    });
    turn.into_inner().unwrap().1.then_some(())
}
