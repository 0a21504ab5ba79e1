//! The check of a query, and what it says. Paths and arrays stay where they stand.

use super::bytes::{check_trees, split};
use super::Refused;

const QUERY: usize = 4096;
const STAGES: usize = 8;
const NEST: usize = 8;
const PATH: usize = 8;
const LIST: usize = 8;

pub type Path<'a> = &'a [u8];

/// What a criterion or data says; what stands inside it follows in the list of nodes.
pub enum Kind<'a> {
    True,
    Exists(Path<'a>),
    /// The path and the trees of the array.
    Equal(Path<'a>, &'a [u8]),
    Same(Path<'a>, Path<'a>),
    Not,
    And,
    Or,
    /// The trees of the array.
    Literal(&'a [u8]),
    Path(Path<'a>),
    List,
    Test,
    Choice,
    Reduced(Path<'a>, u64),
}

/// A criterion or data. All of a query stand in one list, each before what stands inside it.
pub struct Node<'a> {
    pub kind: Kind<'a>,
    /// How many nodes it takes, with those inside it.
    pub size: usize,
}

/// A node is read as the list from there on. This is the list from the next node on, past all that is inside.
pub fn behind<'s, 'a>(nodes: &'s [Node<'a>]) -> &'s [Node<'a>] {
    &nodes[nodes[0].size..]
}

/// Where a criterion or data begins in the list of nodes.
pub type Place = usize;

pub enum Item<'a> {
    Keep(Path<'a>),
    Place(Place, Path<'a>),
}

pub struct Pair<'a> {
    pub source: Path<'a>,
    pub target: Path<'a>,
    /// Whether the sum of what the source gives is placed, and not that itself.
    pub total: bool,
}

pub enum Stage<'a> {
    Match(Place),
    Unwind(Path<'a>),
    Project(Vec<Item<'a>>),
    Group { aggregates: Vec<Pair<'a>>, grouping: Vec<Pair<'a>> },
    Lookup { tree: Path<'a>, joined: Path<'a>, target: Path<'a> },
}

pub struct Query<'a> {
    pub nodes: Vec<Node<'a>>,
    pub stages: Vec<Stage<'a>>,
}

type Field<'a> = (u8, &'a [u8]);

/// The fields of a content that is just so many fields.
fn fields<const N: usize>(mut b: &[u8]) -> Option<[Field<'_>; N]> {
    let mut out = [(0, &b[..0]); N];
    for field in &mut out {
        let (tag, content, rest) = split(b)?;
        *field = (tag, content);
        b = rest;
    }
    b.is_empty().then_some(out)
}

/// What `read` makes of each field of a content that is at most so many fields.
fn each<'a, T>(mut b: &'a [u8], most: usize, mut read: impl FnMut(Field<'a>) -> Option<T>) -> Option<Vec<T>> {
    let mut out = Vec::with_capacity(most);
    while !b.is_empty() {
        let (tag, content, rest) = split(b)?;
        if out.len() == most {
            return None;
        }
        out.push(read((tag, content))?);
        b = rest;
    }
    Some(out)
}

fn path((tag, content): Field) -> Option<Path> {
    (tag == 32 && content.len() <= PATH && !content.contains(&0)).then_some(content)
}

fn target(field: Field) -> Option<Path> {
    path(field).filter(|p| !p.is_empty())
}

fn literal((tag, content): Field<'_>) -> Option<&[u8]> {
    (tag == 1 && check_trees(content)).then_some(content)
}

fn divisor((tag, content): Field) -> Option<u64> {
    let bytes: [u8; 2] = content.try_into().ok()?;
    let n = u64::from(u16::from_be_bytes(bytes));
    (tag == 46 && (1..=10_000).contains(&n)).then_some(n)
}

fn pair((tag, content): Field) -> Option<Pair> {
    let [s, t] = fields(content)?;
    matches!(tag, 49 | 54).then_some(Pair { source: path(s)?, target: target(t)?, total: tag == 54 })
}

fn pairs((tag, content): Field, want: u8, most: usize) -> Option<Vec<Pair>> {
    (tag == want).then(|| each(content, most, pair)).flatten()
}

/// The grouping pairs, of which none is a total.
fn keys(field: Field) -> Option<Vec<Pair>> {
    pairs(field, 51, 4).filter(|pairs| pairs.iter().all(|pair| !pair.total))
}

/// The nodes of the criteria and data that were read.
struct Reader<'a> {
    nodes: Vec<Node<'a>>,
}

impl<'a> Reader<'a> {
    /// Puts a node with nothing inside it.
    fn leaf(&mut self, kind: Kind<'a>) -> Option<Place> {
        self.nodes.push(Node { kind, size: 1 });
        Some(self.nodes.len() - 1)
    }

    /// Puts a node, and inside it what `read` puts.
    fn node(&mut self, kind: Kind<'a>, read: impl FnOnce(&mut Self) -> Option<()>) -> Option<Place> {
        let at = self.leaf(kind)?;
        read(self)?;
        self.nodes[at].size = self.nodes.len() - at;
        Some(at)
    }

    /// A criterion, where so many levels of criteria and data may still stand.
    fn criterion(&mut self, (tag, content): Field<'a>, left: usize) -> Option<Place> {
        let left = left.checked_sub(1)?;
        match tag {
            33 if content.is_empty() => self.leaf(Kind::True),
            34 => {
                let [p] = fields(content)?;
                self.leaf(Kind::Exists(path(p)?))
            }
            35 => {
                let [p, a] = fields(content)?;
                self.leaf(Kind::Equal(path(p)?, literal(a)?))
            }
            36 => {
                let [p, q] = fields(content)?;
                self.leaf(Kind::Same(path(p)?, path(q)?))
            }
            37 => self.node(Kind::Not, |nodes| {
                let [c] = fields(content)?;
                nodes.criterion(c, left).map(drop)
            }),
            38 | 39 => self.node(if tag == 38 { Kind::And } else { Kind::Or }, |nodes| {
                let [c, d] = fields(content)?;
                nodes.criterion(c, left)?;
                nodes.criterion(d, left).map(drop)
            }),
            _ => None,
        }
    }

    /// Data, where so many levels of criteria and data may still stand.
    fn data(&mut self, (tag, content): Field<'a>, left: usize) -> Option<Place> {
        let left = left.checked_sub(1)?;
        match tag {
            40 => {
                let [a] = fields(content)?;
                self.leaf(Kind::Literal(literal(a)?))
            }
            41 => {
                let [p] = fields(content)?;
                self.leaf(Kind::Path(path(p)?))
            }
            42 => self.node(Kind::List, |nodes| nodes.members(content, left)),
            43 => self.node(Kind::Test, |nodes| {
                let [c] = fields(content)?;
                nodes.criterion(c, left).map(drop)
            }),
            44 => self.node(Kind::Choice, |nodes| {
                let [c, d, e] = fields(content)?;
                nodes.criterion(c, left)?;
                nodes.data(d, left)?;
                nodes.data(e, left).map(drop)
            }),
            45 => {
                let [p, n] = fields(content)?;
                self.leaf(Kind::Reduced(path(p)?, divisor(n)?))
            }
            _ => None,
        }
    }

    /// The data of a list, of which there is one at least.
    fn members(&mut self, mut b: &'a [u8], left: usize) -> Option<()> {
        for _ in 0..LIST {
            let (tag, content, rest) = split(b)?;
            self.data((tag, content), left)?;
            if rest.is_empty() {
                return Some(());
            }
            b = rest;
        }
        None
    }

    fn item(&mut self, (tag, content): Field<'a>) -> Option<Item<'a>> {
        match tag {
            47 => {
                let [p] = fields(content)?;
                Some(Item::Keep(path(p)?))
            }
            48 => {
                let [d, p] = fields(content)?;
                Some(Item::Place(self.data(d, NEST)?, target(p)?))
            }
            _ => None,
        }
    }

    fn stage(&mut self, (tag, content): Field<'a>) -> Option<Stage<'a>> {
        Some(match tag {
            17 => {
                let [c] = fields(content)?;
                Stage::Match(self.criterion(c, NEST)?)
            }
            18 => {
                let [p] = fields(content)?;
                Stage::Unwind(path(p)?)
            }
            19 => Stage::Project(each(content, 16, |i| self.item(i)).filter(|items| !items.is_empty())?),
            20 => {
                let [a, g] = fields(content)?;
                Stage::Group { aggregates: pairs(a, 50, 8)?, grouping: keys(g)? }
            }
            21 => {
                let [q, r, p] = fields(content)?;
                Stage::Lookup { tree: path(q)?, joined: path(r)?, target: target(p)? }
            }
            _ => return None,
        })
    }
}

/// What a query says; or refusal 2 or 3.
pub fn check_query(b: &[u8]) -> Result<Query<'_>, Refused> {
    if b.len() > QUERY {
        return Err(2);
    }
    let Some((16, content, [])) = split(b) else { return Err(3) };
    // a node takes about twelve bytes of the query or more
    let mut reader = Reader { nodes: Vec::with_capacity(b.len() / 12) };
    let stages = each(content, STAGES, |s| reader.stage(s)).ok_or(3u32)?;
    Ok(Query { nodes: reader.nodes, stages })
}
