//! The request of a scan in threads (streams.rs): its nodes and where its segments lie, read out of the bytes without a
//! tree of values. Texts in it have no escapes, and members that the data of this folder don't use are an error.

use std::ops::Range;

#[derive(Clone, Copy, PartialEq)]
pub enum Kind {
    Flat,
    Chunked,
    Struct,
    Dict,
}

#[derive(Clone, Copy, PartialEq)]
pub enum Dtype {
    Truths,
    /// Numbers of so many bytes.
    Numbers(u8),
    Texts,
    Struct,
}

/// A node; its children and the names of its fields are places in the request's lists of them.
pub struct Node {
    pub kind: Kind,
    pub dtype: Dtype,
    pub nullable: bool,
    pub segment: u32,
    pub rows: u64,
    pub children: Range<u32>,
    pub names: Range<u32>,
}

/// A node's child, and how many rows of that node the children before it have, where it is chunked.
pub struct Child {
    pub node: u32,
    pub start: u64,
}

#[derive(Clone, Copy)]
pub enum Operator {
    Add,
    Sub,
    Mul,
    Div,
    Equal,
    Less,
    Greater,
}

pub enum Expression {
    Root,
    Number(i64),
    Get(String, Box<Expression>),
    Pack(Vec<(String, Expression)>),
    Two(Operator, Box<[Expression; 2]>),
}

pub struct Request {
    /// Where each segment begins, and how many bytes it has.
    pub locations: Vec<(u64, u64)>,
    pub nodes: Vec<Node>,
    pub children: Vec<Child>,
    pub names: Vec<String>,
    pub projection: Expression,
    pub indices: Option<Vec<u64>>,
}

/// Reads JSON from the front of what is left of a text.
struct Reader<'a> {
    text: &'a str,
    place: usize,
}

impl<'a> Reader<'a> {
    fn peek(&mut self) -> Option<u8> {
        let bytes = self.text.as_bytes();
        while bytes.get(self.place).is_some_and(u8::is_ascii_whitespace) {
            self.place += 1;
        }
        bytes.get(self.place).copied()
    }

    fn expect(&mut self, byte: u8) -> Option<()> {
        (self.peek()? == byte).then(|| self.place += 1)
    }

    /// Reads what stands between two brackets, one thing after each comma.
    fn listed(&mut self, open: u8, close: u8, mut item: impl FnMut(&mut Self) -> Option<()>) -> Option<()> {
        self.expect(open)?;
        if self.peek()? != close {
            item(self)?;
            while self.peek()? == b',' {
                self.place += 1;
                item(self)?;
            }
        }
        self.expect(close)
    }

    fn items(&mut self, item: impl FnMut(&mut Self) -> Option<()>) -> Option<()> {
        self.listed(b'[', b']', item)
    }

    fn members(&mut self, mut member: impl FnMut(&mut Self, &'a str) -> Option<()>) -> Option<()> {
        self.listed(b'{', b'}', |reader| {
            let name = reader.text()?;
            reader.expect(b':')?;
            member(reader, name)
        })
    }

    fn text(&mut self) -> Option<&'a str> {
        self.expect(b'"')?;
        let start = self.place;
        let length = self.text.as_bytes()[start..].iter().position(|byte| matches!(byte, b'"' | b'\\'))?;
        self.place = start + length;
        self.expect(b'"')?;
        Some(&self.text[start..start + length])
    }

    fn number(&mut self) -> Option<u64> {
        self.peek()?;
        let (start, mut number) = (self.place, 0u64);
        while let Some(byte @ b'0'..=b'9') = self.text.as_bytes().get(self.place) {
            number = number.checked_mul(10)?.checked_add(u64::from(byte - b'0'))?;
            self.place += 1;
        }
        (self.place > start).then_some(number)
    }

    fn small(&mut self) -> Option<u32> {
        self.number()?.try_into().ok()
    }

    fn signed(&mut self) -> Option<i64> {
        let negative = self.peek()? == b'-';
        self.place += usize::from(negative);
        let number = i128::from(self.number()?);
        (if negative { -number } else { number }).try_into().ok()
    }

    fn expression(&mut self) -> Option<Expression> {
        if self.peek()? == b'"' {
            return (self.text()? == "root").then_some(Expression::Root);
        }
        let mut read = None;
        self.members(|reader, name| {
            match name {
                "lit" => read = Some(Expression::Number(reader.signed()?)),
                "type" => (reader.text()? == "i64").then_some(())?,
                "get" => {
                    reader.expect(b'[')?;
                    let field = reader.text()?.to_string();
                    reader.expect(b',')?;
                    read = Some(Expression::Get(field, Box::new(reader.expression()?)));
                    reader.expect(b']')?;
                }
                "pack" => read = Some(Expression::Pack(reader.fields()?)),
                _ => read = Some(Expression::Two(operator(name)?, Box::new(reader.two()?))),
            }
            Some(())
        })?;
        read
    }

    fn two(&mut self) -> Option<[Expression; 2]> {
        let mut parts = Vec::new();
        self.items(|reader| reader.expression().map(|part| parts.push(part)))?;
        parts.try_into().ok()
    }

    fn fields(&mut self) -> Option<Vec<(String, Expression)>> {
        let mut fields = Vec::new();
        self.items(|reader| {
            reader.expect(b'[')?;
            let name = reader.text()?.to_string();
            reader.expect(b',')?;
            fields.push((name, reader.expression()?));
            reader.expect(b']')
        })?;
        Some(fields)
    }

    fn location(&mut self) -> Option<(u64, u64)> {
        let (mut parts, mut count) = ([0; 3], 0);
        self.items(|reader| {
            *parts.get_mut(count)? = reader.number()?;
            count += 1;
            Some(())
        })?;
        (count == 3).then_some((parts[0], parts[1]))
    }
}

fn operator(name: &str) -> Option<Operator> {
    Some(match name {
        "add" => Operator::Add,
        "sub" => Operator::Sub,
        "mul" => Operator::Mul,
        "div" => Operator::Div,
        "eq" => Operator::Equal,
        "lt" => Operator::Less,
        "gt" => Operator::Greater,
        _ => return None,
    })
}

impl Request {
    /// The request of a text, or nothing if it is none.
    pub fn read(text: &str) -> Option<Request> {
        let mut request = Request {
            locations: Vec::new(),
            nodes: Vec::new(),
            children: Vec::new(),
            names: Vec::new(),
            projection: Expression::Root,
            indices: None,
        };
        Reader { text, place: 0 }.members(|reader, name| match name {
            "locations" => reader.items(|reader| reader.location().map(|place| request.locations.push(place))),
            "nodes" => reader.items(|reader| request.read_node(reader)),
            "projection" => reader.expression().map(|projection| request.projection = projection),
            "indices" => {
                let rows = request.indices.insert(Vec::new());
                reader.items(|reader| reader.number().map(|row| rows.push(row)))
            }
            _ => None,
        })?;
        request.set_starts()?;
        Some(request)
    }

    fn read_node(&mut self, reader: &mut Reader) -> Option<()> {
        let (mut kind, mut dtype, mut nullable) = (None, Dtype::Struct, false);
        let (mut segment, mut rows) = (u32::MAX, 0);
        let (children, names) = (self.children.len() as u32, self.names.len() as u32);
        reader.members(|reader, name| {
            match name {
                "kind" => kind = Some(kind_of(reader.text()?)?),
                "rows" => rows = reader.number()?,
                "segment" => segment = reader.small()?,
                "children" => reader.items(|reader| {
                    let node = reader.small()?;
                    self.children.push(Child { node, start: 0 });
                    Some(())
                })?,
                "dtype" if reader.peek()? == b'{' => self.read_fields(reader)?,
                "dtype" => (dtype, nullable) = dtype_of(reader.text()?)?,
                _ => None?,
            }
            Some(())
        })?;
        let children = children..self.children.len() as u32;
        let names = names..self.names.len() as u32;
        self.nodes.push(Node { kind: kind?, dtype, nullable, segment, rows, children, names });
        Some(())
    }

    /// The names of a struct's fields: what is in each of them its node says.
    fn read_fields(&mut self, reader: &mut Reader) -> Option<()> {
        reader.members(|reader, name| {
            (name == "struct").then_some(())?;
            reader.items(|reader| {
                reader.expect(b'[')?;
                self.names.push(reader.text()?.to_string());
                reader.expect(b',')?;
                reader.text()?;
                reader.expect(b']')
            })
        })
    }

    /// Counts the rows before each child; each child must stand behind its node, and the root must be there.
    fn set_starts(&mut self) -> Option<()> {
        for (place, node) in self.nodes.iter().enumerate() {
            let mut start = 0;
            for child in &mut self.children[node.children.start as usize..node.children.end as usize] {
                child.start = start;
                (child.node as usize > place).then_some(())?;
                start += self.nodes.get(child.node as usize)?.rows;
            }
            (node.kind != Kind::Chunked || start == node.rows).then_some(())?;
        }
        self.nodes.first().map(|_| ())
    }
}

fn kind_of(name: &str) -> Option<Kind> {
    Some(match name {
        "flat" => Kind::Flat,
        "chunked" => Kind::Chunked,
        "struct" => Kind::Struct,
        "dict" => Kind::Dict,
        _ => return None,
    })
}

/// The dtype of a leaf, and whether it takes nulls.
fn dtype_of(name: &str) -> Option<(Dtype, bool)> {
    let bare = name.trim_end_matches('?');
    let dtype = match bare {
        "bool" => Dtype::Truths,
        "u8" => Dtype::Numbers(1),
        "u32" => Dtype::Numbers(4),
        "i64" => Dtype::Numbers(8),
        "utf8" => Dtype::Texts,
        _ => return None,
    };
    Some((dtype, bare.len() < name.len()))
}
