//! Searches by looks, from document 02, request 10: a look sees one node's 32 words at one moment, the header is one look, and the looks
//! fall between the orders of one call, none before the one that it follows. Every such sequence of moments is followed: a part of the table
//! is seen in one of its versions, and the earliest moment of a version leaves open all that a later one does.
use crate::reference::*;
use std::collections::HashMap;

/// The versions of a part of the table: the first moment of each, and its words.
type Versions = Vec<(usize, Vec<u64>)>;

/// A table over the orders of a call. Moment m is after the first m of them.
pub struct Course {
    base: Vec<u64>,
    /// Node 0 stands for the header. Only parts that change are in it.
    parts: HashMap<u64, Versions>,
}

/// The words of a node, or of the header.
fn part_of(t: &[u64], n: u64) -> Vec<u64> {
    if n == 0 { t[..8].to_vec() } else { t[start(n)..start(n) + 32].to_vec() }
}

impl Course {
    pub fn new(t: &[u64], orders: &[Order]) -> Course {
        let (mut now, mut parts) = (t.to_vec(), HashMap::<u64, Versions>::new());
        for (m, o) in orders.iter().enumerate() {
            if let Order::Store(w, x) = *o {
                let n = if w < 8 { 0 } else { (w as u64 - 8) / 32 + 1 };
                let versions = parts.entry(n).or_insert_with(|| vec![(0, part_of(&now, n))]);
                now[w] = x;
                versions.push((m + 1, part_of(&now, n)));
            }
        }
        Course { base: t.to_vec(), parts }
    }

    /// What a look at a node may see at moment m or later: the moment, and the words.
    fn looks(&self, n: u64, m: usize) -> Vec<(usize, Vec<u64>)> {
        let Some(versions) = self.parts.get(&n) else { return vec![(m, part_of(&self.base, n))] };
        let now = versions.iter().rposition(|v| v.0 <= m).unwrap();
        versions[now..].iter().map(|v| (v.0.max(m), v.1.clone())).collect()
    }
}

/// A node from its words alone.
fn seen(words: &[u64]) -> Node {
    let mut t = vec![0; 8];
    t.extend_from_slice(words);
    node(&t, 1)
}

/// A search for a key.
pub struct Reader<'a> {
    course: &'a Course,
    key: u64,
    nodes: u64,
    /// The answers from a node on a level on, come to at a moment.
    known: HashMap<(u64, u64, usize), Vec<Answer>>,
    /// Whether the way along the leaves from one that is seen at a moment may be refused, with so many leaves left.
    lost: HashMap<(u64, usize, u64), bool>,
    /// Pairs of looks followed.
    pub followed: u64,
}

fn add(answers: &mut Vec<Answer>, more: Vec<Answer>) {
    for a in more {
        if !answers.contains(&a) {
            answers.push(a);
        }
    }
}

impl Reader<'_> {
    pub fn new(course: &Course, key: u64) -> Reader<'_> {
        Reader { course, key, nodes: course.base[2], known: HashMap::new(), lost: HashMap::new(), followed: 0 }
    }

    /// All that the search of a collection may answer, the neighbour left out.
    pub fn answers(&mut self, collection: u64) -> Vec<Answer> {
        let mut all = vec![];
        for (m, header) in self.course.looks(0, 0) {
            let mut t = self.course.base.clone();
            t[..8].copy_from_slice(&header);
            if !header_ok(&t) {
                add(&mut all, vec![Answer::Refused(2)]);
            } else if no_collection(&t, collection) {
                add(&mut all, vec![Answer::Refused(17)]);
            } else {
                let root = t[root_word(collection)];
                for (i, words) in self.course.looks(root, m) {
                    let x = seen(&words);
                    let more = if x.level > 15 { vec![Answer::Refused(3)] } else { self.from(root, &x, x.level, i) };
                    add(&mut all, more);
                }
            }
        }
        all
    }

    fn inside(&self, n: u64) -> bool {
        (1..=self.nodes).contains(&n)
    }

    /// Coming to node n on a level, with the look at it still to come.
    fn come(&mut self, n: u64, level: u64, m: usize) -> Vec<Answer> {
        if !self.inside(n) {
            return vec![Answer::Refused(3)];
        }
        if let Some(known) = self.known.get(&(n, level, m)) {
            return known.clone();
        }
        let mut all = vec![];
        for (i, words) in self.course.looks(n, m) {
            let more = self.from(n, &seen(&words), level, i);
            add(&mut all, more);
        }
        self.known.insert((n, level, m), all.clone());
        all
    }

    /// Node n was seen as x at moment i; now its sibling, if it has one.
    fn from(&mut self, n: u64, x: &Node, level: u64, i: usize) -> Vec<Answer> {
        if x.level != level || x.sibling != 0 && !self.inside(x.sibling) {
            return vec![Answer::Refused(3)];
        }
        if x.sibling == 0 {
            self.followed += 1;
            return self.on(n, x, level, i);
        }
        let mut all = vec![];
        for (j, words) in self.course.looks(x.sibling, i) {
            self.followed += 1;
            let y = seen(&words);
            let more = match (y.level == level, self.key < y.fence) {
                (false, _) => vec![Answer::Refused(3)],
                (true, true) => self.on(n, x, level, j),
                (true, false) => self.on(x.sibling, &y, level, j),
            };
            add(&mut all, more);
        }
        all
    }

    /// The search stands on node n, seen as x.
    fn on(&mut self, n: u64, x: &Node, level: u64, m: usize) -> Vec<Answer> {
        if level > 0 {
            let way = x.shown().iter().filter(|s| s.key <= self.key).last().map_or(x.left, |s| s.pointer);
            return self.come(way, level - 1, m);
        }
        if let Some(s) = x.shown().iter().find(|s| s.key == self.key) {
            return vec![Answer::Found(recording(s.pointer), class(s.pointer))];
        }
        // The next code up is looked for by looks of its own, from the leaf on.
        let lost = self.course.looks(n, m).into_iter().any(|(i, words)| self.loses(n, i, &seen(&words), self.nodes));
        if lost { vec![Answer::Absent(None), Answer::Refused(3)] } else { vec![Answer::Absent(None)] }
    }

    /// From leaf n, seen as x at moment i, the next code up may be refused.
    fn loses(&mut self, n: u64, i: usize, x: &Node, left: u64) -> bool {
        if left == 0 || x.level != 0 || x.sibling != 0 && !self.inside(x.sibling) {
            return true;
        }
        if x.sibling == 0 {
            return false;
        }
        if let Some(&known) = self.lost.get(&(n, i, left)) {
            return known;
        }
        let looks = self.course.looks(x.sibling, i);
        let lost = looks.into_iter().any(|(j, words)| {
            let y = seen(&words);
            y.level != 0 || !x.shown().iter().any(|s| s.key > self.key && s.key < y.fence) && self.loses(x.sibling, j, &y, left - 1)
        });
        self.lost.insert((n, i, left), lost);
        lost
    }
}
