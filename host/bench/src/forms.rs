//! Byte forms of queries and arrays, for the cases.

pub fn field(tag: u8, content: &[u8]) -> Vec<u8> {
    let mut out = vec![tag, (content.len() >> 8) as u8, content.len() as u8];
    out.extend_from_slice(content);
    out
}

/// The field around some fields.
fn around(tag: u8, fields: &[Vec<u8>]) -> Vec<u8> {
    field(tag, &fields.concat())
}

// ---- trees

fn tree(root: Vec<u8>, labels: &[(u8, Vec<Vec<u8>>)]) -> Vec<u8> {
    let mut content = root;
    for (k, trees) in labels {
        content.extend(around(7, &[vec![*k], array(trees)]));
    }
    field(2, &content)
}

pub fn integer(x: i64) -> Vec<u8> {
    tree(field(5, &x.to_be_bytes()), &[])
}

pub fn text(s: &str) -> Vec<u8> {
    tree(field(6, s.as_bytes()), &[])
}

pub fn void(labels: &[(u8, Vec<Vec<u8>>)]) -> Vec<u8> {
    tree(field(3, &[]), labels)
}

pub fn array(trees: &[Vec<u8>]) -> Vec<u8> {
    around(1, trees)
}

// ---- queries

fn path(labels: &[u8]) -> Vec<u8> {
    field(32, labels)
}

pub fn query(stages: &[Vec<u8>]) -> Vec<u8> {
    around(16, stages)
}

pub fn matching(criterion: Vec<u8>) -> Vec<u8> {
    field(17, &criterion)
}

pub fn unwind(p: &[u8]) -> Vec<u8> {
    field(18, &path(p))
}

pub fn project(items: &[Vec<u8>]) -> Vec<u8> {
    around(19, items)
}

pub type Pair<'a> = (&'a [u8], &'a [u8]);

fn pairs(tag: u8, of: u8, ps: &[Pair]) -> Vec<u8> {
    let all: Vec<Vec<u8>> = ps.iter().map(|(s, t)| around(of, &[path(s), path(t)])).collect();
    around(tag, &all)
}

pub fn group(aggregates: &[Pair], grouping: &[Pair]) -> Vec<u8> {
    around(20, &[pairs(50, 49, aggregates), pairs(51, 49, grouping)])
}

/// A group whose aggregates are totals.
pub fn totals(aggregates: &[Pair], grouping: &[Pair]) -> Vec<u8> {
    around(20, &[pairs(50, 54, aggregates), pairs(51, 49, grouping)])
}

pub fn lookup(q: &[u8], r: &[u8], p: &[u8]) -> Vec<u8> {
    around(21, &[path(q), path(r), path(p)])
}

pub fn exists(p: &[u8]) -> Vec<u8> {
    field(34, &path(p))
}

pub fn equal(p: &[u8], trees: &[Vec<u8>]) -> Vec<u8> {
    around(35, &[path(p), array(trees)])
}

pub fn always() -> Vec<u8> {
    field(33, &[])
}

pub fn same(p: &[u8], q: &[u8]) -> Vec<u8> {
    around(36, &[path(p), path(q)])
}

pub fn not(c: Vec<u8>) -> Vec<u8> {
    field(37, &c)
}

pub fn both(c: Vec<u8>, d: Vec<u8>) -> Vec<u8> {
    around(38, &[c, d])
}

pub fn either(c: Vec<u8>, d: Vec<u8>) -> Vec<u8> {
    around(39, &[c, d])
}

pub fn literal(trees: &[Vec<u8>]) -> Vec<u8> {
    field(40, &array(trees))
}

pub fn from(p: &[u8]) -> Vec<u8> {
    field(41, &path(p))
}

pub fn list(data: &[Vec<u8>]) -> Vec<u8> {
    around(42, data)
}

pub fn tested(c: Vec<u8>) -> Vec<u8> {
    field(43, &c)
}

pub fn choice(c: Vec<u8>, yes: Vec<u8>, no: Vec<u8>) -> Vec<u8> {
    around(44, &[c, yes, no])
}

pub fn reduced(p: &[u8], n: u16) -> Vec<u8> {
    around(45, &[path(p), field(46, &n.to_be_bytes())])
}

pub fn keep(p: &[u8]) -> Vec<u8> {
    field(47, &path(p))
}

pub fn place(data: Vec<u8>, p: &[u8]) -> Vec<u8> {
    around(48, &[data, path(p)])
}
