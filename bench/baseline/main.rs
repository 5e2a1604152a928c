//! A plain Rust program for comparison, without proofs: all rows of a request over a linked tree and grants.
//!
//! It is given three files, opens them with all checks, asks the grants about each row, and prints the number of
//! rows, the number of permits, and a checksum over the fields of every row.
//! The fields of a row are its reference, the positions of its choice, its node + 1 (0 if it has none), and the
//! numbers of its decision, status and place; for each field in turn the checksum is multiplied by 31, and the field
//! is added, modulo 2^64.
//! The decision point sees only the single request of each row, as a view that copies nothing.

use std::collections::HashMap;
use std::hash::{BuildHasherDefault, Hasher};
use std::process::ExitCode;

#[derive(Debug)]
struct Malformed;

type Read<T> = Result<T, Malformed>;

/// A fast hash for short texts that no adversary chooses.
#[derive(Default)]
struct ShortHasher(u64);

impl ShortHasher {
    fn word(&mut self, word: u64) {
        self.0 = (self.0.rotate_left(5) ^ word).wrapping_mul(0x517c_c1b7_2722_0a95);
    }
}

impl Hasher for ShortHasher {
    fn write(&mut self, bytes: &[u8]) {
        let Some(last) = bytes.last_chunk::<8>() else {
            let word = bytes.iter().fold(0, |word, &byte| word << 8 | u64::from(byte));
            return self.word(word);
        };
        for word in bytes.as_chunks::<8>().0 {
            self.word(u64::from_le_bytes(*word));
        }
        self.word(u64::from_le_bytes(*last));
    }

    fn write_usize(&mut self, _length: usize) {}

    fn finish(&self) -> u64 {
        self.0
    }
}

type Index<K, V> = HashMap<K, V, BuildHasherDefault<ShortHasher>>;

/// The bytes that are still to be read.
struct Input<'a>(&'a [u8]);

impl<'a> Input<'a> {
    fn number(&mut self, least: u8, most: u8) -> Read<u8> {
        let (&byte, rest) = self.0.split_first().ok_or(Malformed)?;
        if byte < least || byte > most {
            return Err(Malformed);
        }
        self.0 = rest;
        Ok(byte)
    }

    fn wide(&mut self, most: usize) -> Read<usize> {
        let (pair, rest) = self.0.split_first_chunk().ok_or(Malformed)?;
        let number = usize::from(u16::from_be_bytes(*pair));
        if number > most {
            return Err(Malformed);
        }
        self.0 = rest;
        Ok(number)
    }

    fn bytes(&mut self, count: u8) -> Read<&'a [u8]> {
        let (bytes, rest) = self.0.split_at_checked(count.into()).ok_or(Malformed)?;
        self.0 = rest;
        Ok(bytes)
    }

    fn text(&mut self, least: u8, most: u8) -> Read<&'a [u8]> {
        let length = self.number(least, most)?;
        self.bytes(length)
    }

    fn end(&self) -> Read<()> {
        if self.0.is_empty() { Ok(()) } else { Err(Malformed) }
    }
}

const RESOURCE: u8 = 1;
const SUBJECT: u8 = 2;
const ACTION: u8 = 3;
const RESOURCE_ID: u8 = 1;
const SCOPE: u8 = 2;
const SUBJECT_ID: u8 = 3;
const ACTION_ID: u8 = 4;
const STRING: u8 = 1;

#[derive(Clone, Copy)]
struct Attribute<'a> {
    id: u8,
    kind: u8,
    value: &'a [u8],
}

struct Element<'a> {
    category: u8,
    attributes: Vec<Attribute<'a>>,
}

impl<'a> Element<'a> {
    fn with_id(&self, id: u8) -> impl Iterator<Item = &Attribute<'a>> {
        self.attributes.iter().filter(move |attribute| attribute.id == id)
    }
}

struct Request<'a> {
    elements: Vec<Element<'a>>,
    /// The number of the element that carries a tag.
    tagged: [Option<usize>; 256],
    references: Vec<&'a [u8]>,
}

impl<'a> Request<'a> {
    fn open(bytes: &'a [u8]) -> Read<Self> {
        let mut input = Input(bytes);
        let map = input.number(0, 3)?;
        if map & 1 != 0 {
            input.number(1, 1)?;
        }
        let mut elements = Vec::new();
        let mut tagged = [None; 256];
        for number in 0..input.number(1, 16)?.into() {
            let map = input.number(0, 3)?;
            let category = input.number(1, 255)?;
            if map & 1 != 0 {
                let tag = input.number(1, 255)?;
                if tagged[usize::from(tag)].replace(number).is_some() {
                    return Err(Malformed);
                }
            }
            let count = if map & 2 != 0 { input.number(1, 8)? } else { 0 };
            let attributes = (0..count).map(|_| attribute(&mut input)).collect::<Read<_>>()?;
            elements.push(Element { category, attributes });
        }
        let mut references = Vec::new();
        if map & 2 != 0 {
            for _ in 0..input.number(1, 16)? {
                let tags = input.text(1, 16)?;
                if tags.contains(&0) {
                    return Err(Malformed);
                }
                references.push(tags);
            }
        }
        input.end()?;
        Ok(Request { elements, tagged, references })
    }
}

fn attribute<'a>(input: &mut Input<'a>) -> Read<Attribute<'a>> {
    let map = input.number(0, 7)?;
    let id = input.number(1, 255)?;
    let kind = if map & 1 != 0 { input.number(2, 255)? } else { STRING };
    if map & 2 != 0 {
        input.text(1, 64)?;
    }
    let value = input.text(0, 64)?;
    Ok(Attribute { id, kind, value })
}

struct Tree<'a> {
    names: Vec<&'a [u8]>,
    nodes: Index<&'a [u8], u16>,
    /// The children of node n are those from `starts[n]` to `starts[n + 1]`.
    starts: Vec<u16>,
    children: Vec<u16>,
}

impl<'a> Tree<'a> {
    fn open(bytes: &'a [u8]) -> Read<Self> {
        let mut input = Input(bytes);
        let count = input.wide(1024)?;
        let mut names = Vec::with_capacity(count);
        let mut nodes = Index::with_capacity_and_hasher(count, Default::default());
        for node in 0..count {
            let name = input.text(1, 64)?;
            if nodes.insert(name, node as u16).is_some() {
                return Err(Malformed);
            }
            names.push(name);
        }
        let mut links = Vec::new();
        for _ in 0..input.wide(4096)? {
            let (parent, child) = (input.wide(65535)?, input.wide(65535)?);
            if parent >= count || child >= count {
                return Err(Malformed);
            }
            links.push((parent, child));
        }
        input.end()?;
        let mut starts = vec![0; count + 1];
        for &(parent, _) in &links {
            starts[parent + 1] += 1;
        }
        for node in 0..count {
            starts[node + 1] += starts[node];
        }
        let mut next = starts.clone();
        let mut children = vec![0; links.len()];
        for &(parent, child) in &links {
            children[usize::from(next[parent])] = child as u16;
            next[parent] += 1;
        }
        Ok(Tree { names, nodes, starts, children })
    }

    fn children(&self, node: u16) -> &[u16] {
        let node = usize::from(node);
        &self.children[self.starts[node].into()..self.starts[node + 1].into()]
    }

    /// The nodes that at most `levels` links lead to, by distance and then by number.
    fn reach(&self, asked: u16, levels: usize) -> Vec<u16> {
        let mut seen = vec![false; self.names.len()];
        let mut reached = vec![asked];
        seen[usize::from(asked)] = true;
        let mut first = 0;
        for _ in 0..levels {
            let end = reached.len();
            for at in first..end {
                for &child in self.children(reached[at]) {
                    if !std::mem::replace(&mut seen[usize::from(child)], true) {
                        reached.push(child);
                    }
                }
            }
            if reached.len() == end {
                break;
            }
            first = end;
            reached[first..].sort_unstable();
        }
        reached
    }
}

#[derive(Clone, Copy, PartialEq)]
enum Decision {
    Permit = 0,
    Deny = 1,
    Indeterminate = 2,
    NotApplicable = 3,
}

#[derive(Clone, Copy)]
enum Status {
    Ok = 0,
    SyntaxError = 1,
    ProcessingError = 3,
}

#[derive(Clone, Copy)]
struct Answer {
    decision: Decision,
    status: Status,
    place: u16,
}

/// The elements of one row; the name of the node takes the place of the resource-id, and the scope is gone.
struct Single<'r, 'a> {
    elements: [&'r Element<'a>; 16],
    count: usize,
    name: Option<&'r [u8]>,
}

impl<'r> Single<'r, '_> {
    /// The value of the only attribute of an id in a category; how many there are, if there is not one.
    fn only(&self, category: u8, id: u8) -> Result<&'r [u8], usize> {
        let mut value = None;
        let mut count = 0;
        for element in &self.elements[..self.count] {
            if element.category == category {
                for attribute in &element.attributes {
                    if attribute.id == id {
                        count += 1;
                        value = Some(attribute.value);
                    }
                }
            }
        }
        match value {
            Some(value) if count == 1 => Ok(value),
            _ => Err(count),
        }
    }

    fn resource_id(&self) -> Result<&'r [u8], usize> {
        match self.name {
            Some(name) => Ok(name),
            None => self.only(RESOURCE, RESOURCE_ID),
        }
    }
}

struct Grants<'a>(Index<[&'a [u8]; 3], u16>);

impl<'a> Grants<'a> {
    fn open(bytes: &'a [u8]) -> Read<Self> {
        let mut input = Input(bytes);
        let count = input.wide(1024)?;
        let mut lines = Index::with_capacity_and_hasher(count, Default::default());
        for line in 0..count {
            let texts = [input.text(1, 64)?, input.text(1, 64)?, input.text(1, 64)?];
            lines.entry(texts).or_insert(line as u16);
        }
        input.end()?;
        Ok(Grants(lines))
    }

    fn decide(&self, single: &Single) -> Answer {
        let ids = (single.only(SUBJECT, SUBJECT_ID), single.only(ACTION, ACTION_ID), single.resource_id());
        let (decision, status, place) = match ids {
            (Ok(subject), Ok(action), Ok(resource)) => match self.0.get(&[subject, action, resource]) {
                Some(&line) => (Decision::Permit, Status::Ok, line),
                None => (Decision::Deny, Status::Ok, 0),
            },
            (Err(0), _, _) | (_, Err(0), _) | (_, _, Err(0)) => (Decision::NotApplicable, Status::Ok, 0),
            _ => (Decision::Indeterminate, Status::ProcessingError, 0),
        };
        Answer { decision, status, place }
    }
}

/// What a resource element asks of the tree.
enum Asked {
    Itself,
    Nodes(Vec<u16>),
    Fault(Status),
}

impl Asked {
    fn of(element: &Element, tree: &Tree) -> Asked {
        let mut scopes = element.with_id(SCOPE);
        let Some(scope) = scopes.next() else {
            return Asked::Itself;
        };
        if scopes.next().is_some() || scope.kind != STRING {
            return Asked::Fault(Status::SyntaxError);
        }
        let levels = match scope.value {
            b"Immediate" => return Asked::Itself,
            b"Children" => 1,
            b"Descendants" => usize::MAX,
            _ => return Asked::Fault(Status::SyntaxError),
        };
        let mut ids = element.with_id(RESOURCE_ID);
        match (ids.next(), ids.next()) {
            (Some(id), None) => match tree.nodes.get(id.value) {
                Some(&node) => Asked::Nodes(tree.reach(node, levels)),
                None => Asked::Fault(Status::ProcessingError),
            },
            _ => Asked::Fault(Status::SyntaxError),
        }
    }
}

#[derive(Default)]
struct Tally {
    rows: u64,
    permits: u64,
    checksum: u64,
}

impl Tally {
    fn add(&mut self, field: usize) {
        self.checksum = self.checksum.wrapping_mul(31).wrapping_add(field as u64);
    }

    fn row(&mut self, reference: usize, choice: &[usize], node: Option<u16>, answer: Answer) {
        self.rows += 1;
        self.permits += u64::from(answer.decision == Decision::Permit);
        self.add(reference);
        for &position in choice {
            self.add(position);
        }
        self.add(node.map_or(0, |node| usize::from(node) + 1));
        self.add(answer.decision as usize);
        self.add(answer.status as usize);
        self.add(answer.place.into());
    }
}

fn fault(status: Status, place: usize) -> Answer {
    Answer { decision: Decision::Indeterminate, status, place: place as u16 }
}

struct World<'a> {
    request: Request<'a>,
    tree: Tree<'a>,
    grants: Grants<'a>,
    /// What each element asks of the tree.
    asked: Vec<Asked>,
}

impl World<'_> {
    fn rows(&self) -> Tally {
        let mut tally = Tally::default();
        if self.request.references.is_empty() {
            let list: Vec<usize> = (0..self.request.elements.len()).collect();
            self.listed(0, &list, &mut tally);
        }
        for (reference, tags) in self.request.references.iter().enumerate() {
            let named = tags.iter().map(|&tag| self.request.tagged[usize::from(tag)]);
            match named.clone().position(|number| number.is_none()) {
                Some(place) => tally.row(reference, &[], None, fault(Status::SyntaxError, place)),
                None => self.listed(reference, &named.flatten().collect::<Vec<_>>(), &mut tally),
            }
        }
        tally
    }

    /// All choices of a reference that lists these elements.
    fn listed(&self, reference: usize, list: &[usize], tally: &mut Tally) {
        let mut categories: Vec<u8> = Vec::new();
        let mut widths: Vec<usize> = Vec::new();
        // For each position in the list: which category, and which position in it.
        let mut spots = Vec::new();
        for &number in list {
            let category = self.request.elements[number].category;
            let at = categories.iter().position(|&known| known == category).unwrap_or_else(|| {
                categories.push(category);
                widths.push(0);
                widths.len() - 1
            });
            spots.push((number, at, widths[at]));
            widths[at] += 1;
        }
        let mut choice = vec![0; widths.len()];
        loop {
            self.chosen(reference, &choice, &spots, tally);
            let Some(turned) = (0..widths.len()).rfind(|&at| choice[at] + 1 < widths[at]) else {
                return;
            };
            choice[turned] += 1;
            choice[turned + 1..].fill(0);
        }
    }

    /// All rows of a choice.
    fn chosen(&self, reference: usize, choice: &[usize], spots: &[(usize, usize, usize)], tally: &mut Tally) {
        let elements = &self.request.elements;
        let mut single = Single { elements: [&elements[0]; 16], count: 0, name: None };
        let mut resource = None;
        for &(number, at, position) in spots {
            if choice[at] == position {
                single.elements[single.count] = &elements[number];
                single.count += 1;
                if elements[number].category == RESOURCE {
                    resource = Some(number);
                }
            }
        }
        match resource.map(|number| (number, &self.asked[number])) {
            None | Some((_, Asked::Itself)) => tally.row(reference, choice, None, self.grants.decide(&single)),
            Some((number, Asked::Fault(status))) => tally.row(reference, choice, None, fault(*status, number)),
            Some((_, Asked::Nodes(nodes))) => {
                for &node in nodes {
                    single.name = Some(self.tree.names[usize::from(node)]);
                    tally.row(reference, choice, Some(node), self.grants.decide(&single));
                }
            }
        }
    }
}

fn run(request: &[u8], tree: &[u8], grants: &[u8]) -> Read<Tally> {
    let request = Request::open(request)?;
    let tree = Tree::open(tree)?;
    let grants = Grants::open(grants)?;
    let asked = request.elements.iter().map(|element| match element.category {
        RESOURCE => Asked::of(element, &tree),
        _ => Asked::Itself,
    });
    let asked = asked.collect();
    Ok(World { request, tree, grants, asked }.rows())
}

fn main() -> ExitCode {
    let words: Vec<String> = std::env::args().skip(1).collect();
    let [request, tree, grants] = words.as_slice() else {
        eprintln!("usage: baseline REQUEST LINKED-TREE GRANTS");
        return ExitCode::FAILURE;
    };
    let (Ok(request), Ok(tree), Ok(grants)) = (std::fs::read(request), std::fs::read(tree), std::fs::read(grants)) else {
        eprintln!("baseline: a file cannot be read");
        return ExitCode::FAILURE;
    };
    let Ok(Tally { rows, permits, checksum }) = run(&request, &tree, &grants) else {
        println!("refused");
        return ExitCode::FAILURE;
    };
    println!("rows {rows}\npermits {permits}\nchecksum {checksum}");
    ExitCode::SUCCESS
}
