//! The yardstick: the program's job on the data sets of this folder, written plainly with the standard library
//! alone. It reads the request, then each segment, tests it, makes the lines in one buffer, and writes them 64 KiB
//! at a time. One thread, no proofs, no cleverness. With the option it has so many threads, which stream: they keep no
//! column (streams.rs).
//!
//! plain SEGMENTS REQUEST [--threads N]
//! plain demo ROWS --threads N

mod columns;
mod demos;
mod requests;
mod streams;

use std::fmt::Write as _;
use std::fs::{self, File};
use std::io::{self, Read, Seek, SeekFrom, Write};

/// How many bytes are written at a time.
const PIECE: usize = 65_536;

/// JSON as a tree of values, as far as requests need it.
enum Json {
    Number(u64),
    Text(String),
    List(Vec<Json>),
    Object(Vec<(String, Json)>),
}

impl Json {
    fn member(&self, name: &str) -> Option<&Json> {
        match self {
            Json::Object(members) => members.iter().find(|(other, _)| other == name).map(|(_, value)| value),
            _ => None,
        }
    }

    fn items(&self) -> Option<&[Json]> {
        match self {
            Json::List(items) => Some(items),
            _ => None,
        }
    }

    fn number(&self) -> Option<u64> {
        match self {
            Json::Number(number) => Some(*number),
            _ => None,
        }
    }

    fn text(&self) -> Option<&str> {
        match self {
            Json::Text(text) => Some(text),
            _ => None,
        }
    }
}

/// Reads JSON from the front of the bytes that are left.
struct Reader<'a> {
    bytes: &'a [u8],
    place: usize,
}

impl Reader<'_> {
    fn peek(&mut self) -> Option<u8> {
        while self.bytes.get(self.place).is_some_and(u8::is_ascii_whitespace) {
            self.place += 1;
        }
        self.bytes.get(self.place).copied()
    }

    fn expect(&mut self, byte: u8) -> Option<()> {
        (self.peek()? == byte).then(|| self.place += 1)
    }

    fn value(&mut self) -> Option<Json> {
        match self.peek()? {
            b'{' => self.listed(b'{', b'}', |reader| {
                let name = reader.text()?;
                reader.expect(b':')?;
                Some((name, reader.value()?))
            })
            .map(Json::Object),
            b'[' => self.listed(b'[', b']', Self::value).map(Json::List),
            b'"' => self.text().map(Json::Text),
            _ => self.number().map(Json::Number),
        }
    }

    fn listed<T>(&mut self, open: u8, close: u8, item: impl Fn(&mut Self) -> Option<T>) -> Option<Vec<T>> {
        self.expect(open)?;
        let mut items = Vec::new();
        if self.peek()? != close {
            items.push(item(self)?);
            while self.peek()? == b',' {
                self.expect(b',')?;
                items.push(item(self)?);
            }
        }
        self.expect(close)?;
        Some(items)
    }

    fn text(&mut self) -> Option<String> {
        self.expect(b'"')?;
        let start = self.place;
        while *self.bytes.get(self.place)? != b'"' {
            self.place += 1;
        }
        self.place += 1;
        String::from_utf8(self.bytes[start..self.place - 1].to_vec()).ok()
    }

    fn number(&mut self) -> Option<u64> {
        let start = self.place;
        while self.bytes.get(self.place).is_some_and(u8::is_ascii_digit) {
            self.place += 1;
        }
        std::str::from_utf8(&self.bytes[start..self.place]).ok()?.parse().ok()
    }
}

/// The request's lists, and the file of the segments.
struct Scan<'a> {
    segments: File,
    locations: &'a [Json],
    nodes: &'a [Json],
}

/// Rows as they lie in their segments, which are tested.
enum Column {
    /// Eight bytes a number.
    Numbers(Vec<u8>),
    Codes(Vec<u8>),
    /// All texts behind one another, and where each ends.
    Texts(String, Vec<usize>),
    Struct(Vec<(String, Column)>),
    Dict(Box<Column>, Vec<u8>),
}

impl<'a> Scan<'a> {
    fn segment(&mut self, number: usize) -> Option<Vec<u8>> {
        let location = self.locations.get(number)?.items()?;
        let mut bytes = vec![0; location.get(1)?.number()? as usize];
        self.segments.seek(SeekFrom::Start(location.first()?.number()?)).ok()?;
        self.segments.read_exact(&mut bytes).ok()?;
        Some(bytes)
    }

    fn node(&self, number: &Json) -> Option<&'a Json> {
        self.nodes.get(number.number()? as usize)
    }

    /// The column of a node that isn't chunked.
    fn column(&mut self, node: &Json) -> Option<Column> {
        let dtype = node.member("dtype")?;
        match node.member("kind")?.text()? {
            "flat" => {
                let bytes = self.segment(node.member("segment")?.number()? as usize)?;
                let rows = node.member("rows")?.number()? as usize;
                match (dtype.text()?, node.member("coding").and_then(Json::text).unwrap_or("plain")) {
                    (dtype, "plain") => leaf(dtype, bytes, rows),
                    ("i64", "runs") => runs(&bytes, rows),
                    _ => None,
                }
            }
            "struct" => {
                let mut fields = Vec::new();
                for (field, child) in dtype.member("struct")?.items()?.iter().zip(node.member("children")?.items()?) {
                    let name = field.items()?.first()?.text()?.to_string();
                    fields.push((name, self.column(self.node(child)?)?));
                }
                Some(Column::Struct(fields))
            }
            "dict" => {
                let [values, codes] = node.member("children")?.items()? else { return None };
                let values = self.column(self.node(values)?)?;
                let Column::Codes(codes) = self.column(self.node(codes)?)? else { return None };
                codes.iter().all(|code| (*code as usize) < values.len()).then(|| Column::Dict(Box::new(values), codes))
            }
            _ => None,
        }
    }

    /// Appends a line for each row of a node, the chunks of a chunked one in order.
    fn append_lines(&mut self, node: &Json, lines: &mut String) -> Option<()> {
        if node.member("kind")?.text()? == "chunked" {
            let children = node.member("children")?.items()?;
            return children.iter().try_for_each(|child| self.append_lines(self.node(child)?, lines));
        }
        let column = self.column(node)?;
        for row in 0..column.len() {
            column.append(row, lines);
            lines.push('\n');
        }
        Some(())
    }
}

/// The rows of a segment, which must be as long as they are.
fn leaf(dtype: &str, bytes: Vec<u8>, rows: usize) -> Option<Column> {
    match dtype {
        "i64" => (bytes.len() == 8 * rows).then_some(Column::Numbers(bytes)),
        "u8" => (bytes.len() == rows).then_some(Column::Codes(bytes)),
        "utf8" => texts(bytes.get(..4 * rows)?, &bytes[4 * rows..]),
        _ => None,
    }
}

/// The rows of a segment of runs of numbers, written out: each run must end behind the one before it, the last one with
/// the last row, and have another number than that one.
fn runs(bytes: &[u8], rows: usize) -> Option<Column> {
    let count = u32::from_le_bytes(bytes.get(..4)?.try_into().ok()?) as usize;
    let ends = bytes.get(4..4 + 8 * count)?;
    let numbers = &bytes[4 + 8 * count..];
    let (mut start, mut spread) = (0, Vec::with_capacity(8 * rows));
    for (end, number) in ends.chunks_exact(8).zip(numbers.chunks_exact(8)) {
        let end = u64::from_le_bytes(end.try_into().unwrap()) as usize;
        if end <= start || end > rows || spread.ends_with(number) {
            return None;
        }
        for _ in start..end {
            spread.extend_from_slice(number);
        }
        start = end;
    }
    (start == rows && numbers.len() == 8 * count).then_some(Column::Numbers(spread))
}

/// Texts of these lengths, each of which must be UTF-8.
fn texts(lengths: &[u8], bytes: &[u8]) -> Option<Column> {
    let all = std::str::from_utf8(bytes).ok()?;
    let (mut end, mut ends) = (0, Vec::with_capacity(lengths.len() / 4));
    for length in lengths.chunks_exact(4) {
        end += u32::from_le_bytes(length.try_into().ok()?) as usize;
        if !all.is_char_boundary(end) {
            return None;
        }
        ends.push(end);
    }
    (end == all.len()).then(|| Column::Texts(all.to_string(), ends))
}

impl Column {
    fn len(&self) -> usize {
        match self {
            Column::Numbers(bytes) => bytes.len() / 8,
            Column::Codes(codes) | Column::Dict(_, codes) => codes.len(),
            Column::Texts(_, ends) => ends.len(),
            Column::Struct(fields) => fields.first().map_or(0, |(_, field)| field.len()),
        }
    }

    /// Appends the text of a row.
    fn append(&self, row: usize, lines: &mut String) {
        match self {
            Column::Numbers(bytes) => {
                let number = bytes[8 * row..8 * row + 8].try_into().unwrap();
                write!(lines, "{}", i64::from_le_bytes(number)).unwrap()
            }
            Column::Codes(codes) => write!(lines, "{}", codes[row]).unwrap(),
            Column::Texts(all, ends) => {
                let start = if row == 0 { 0 } else { ends[row - 1] };
                append_text(&all[start..ends[row]], lines)
            }
            Column::Dict(values, codes) => values.append(codes[row] as usize, lines),
            Column::Struct(fields) => {
                lines.push('{');
                for (place, (name, field)) in fields.iter().enumerate() {
                    if place != 0 {
                        lines.push(',');
                    }
                    append_text(name, lines);
                    lines.push(':');
                    field.append(row, lines);
                }
                lines.push('}');
            }
        }
    }
}

/// Appends a text as a JSON string.
fn append_text(text: &str, lines: &mut String) {
    lines.push('"');
    for character in text.chars() {
        match character {
            '"' => lines.push_str("\\\""),
            '\\' => lines.push_str("\\\\"),
            '\u{8}' => lines.push_str("\\b"),
            '\t' => lines.push_str("\\t"),
            '\n' => lines.push_str("\\n"),
            '\u{c}' => lines.push_str("\\f"),
            '\r' => lines.push_str("\\r"),
            '\0'..'\u{20}' => write!(lines, "\\u{:04x}", character as u32).unwrap(),
            _ => lines.push(character),
        }
    }
    lines.push('"');
}

/// Prints all rows, by one thread that makes all lines first.
fn print_at_once(segments: File, bytes: &[u8]) -> io::Result<()> {
    let request = Reader { bytes, place: 0 }.value().ok_or_else(|| io::Error::other("no request"))?;
    let items = |name| request.member(name).and_then(Json::items).ok_or_else(|| io::Error::other("no request"));
    let (locations, nodes) = (items("locations")?, items("nodes")?);
    let mut lines = String::new();
    let root = nodes.first().ok_or_else(|| io::Error::other("no layout"))?;
    let scanned = Scan { segments, locations, nodes }.append_lines(root, &mut lines);
    scanned.ok_or_else(|| io::Error::other("no such layout"))?;
    let mut out = io::stdout();
    lines.as_bytes().chunks(PIECE).try_for_each(|piece| out.write_all(piece))
}

/// Prints the wanted rows by so many threads.
fn print_in_threads(segments: File, bytes: Vec<u8>, threads: usize) -> io::Result<()> {
    let text = String::from_utf8(bytes).map_err(io::Error::other)?;
    let request = requests::Request::read(&text).ok_or_else(|| io::Error::other("no request"))?;
    drop(text);
    streams::scan(&segments, &request, threads).ok_or_else(|| io::Error::other("no such layout"))
}

fn main() -> io::Result<()> {
    let words: Vec<String> = std::env::args().skip(1).collect();
    let words: Vec<&str> = words.iter().map(String::as_str).collect();
    let count = |word: &str| word.parse().ok().filter(|count| *count > 0).ok_or_else(|| io::Error::other("no number"));
    match words[..] {
        ["demo", rows, "--threads", threads] => demos::print(count(rows)?, count(threads)?),
        [segments, request] => print_at_once(File::open(segments)?, &fs::read(request)?),
        [segments, request, "--threads", threads] => {
            print_in_threads(File::open(segments)?, fs::read(request)?, count(threads)?)
        }
        _ => Err(io::Error::other("usage: plain SEGMENTS REQUEST [--threads N], or plain demo ROWS --threads N")),
    }
}
