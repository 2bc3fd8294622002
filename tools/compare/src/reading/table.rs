//! The table: words to classes, or the refusal number 1 to 6.

use std::cmp::Ordering;
use std::collections::BTreeMap;

/// The most ids, classes and nodes of a table.
pub const MAX_RECORDS: u32 = 65_536;
/// The most children of a table.
pub const MAX_CHILDREN: u32 = 262_144;
/// The largest arity of a node, in a table or a pattern.
pub const MAX_ARITY: u32 = 8;

/// A node: its operator and its children's class ids.
#[derive(Clone, Debug, PartialEq, Eq)]
pub struct Node {
    pub operator: u32,
    pub children: Vec<u32>,
}

impl Ord for Node {
    /// By operator, arity, children left to right.
    fn cmp(&self, other: &Self) -> Ordering {
        let key = |n: &Self| (n.operator, n.children.len());
        key(self).cmp(&key(other)).then_with(|| self.children.cmp(&other.children))
    }
}

impl PartialOrd for Node {
    fn partial_cmp(&self, other: &Self) -> Option<Ordering> {
        Some(self.cmp(other))
    }
}

/// A class: its id and its nodes, in table order.
#[derive(Clone, Debug)]
pub struct Class {
    pub id: u32,
    pub nodes: Vec<Node>,
}

/// A good table: what each id stands for, the classes by rising id, and the class of each node.
#[derive(Clone, Debug)]
pub struct Table {
    pub find: Vec<u32>,
    pub classes: Vec<Class>,
    class_of: BTreeMap<Node, u32>,
}

impl Table {
    /// Whether the id is canonical.
    pub fn is_canonical(&self, id: u32) -> bool {
        self.find.get(id as usize) == Some(&id)
    }

    /// The place of the class record with this id; it must be canonical.
    pub fn place(&self, id: u32) -> usize {
        self.classes.binary_search_by_key(&id, |class| class.id).expect("a canonical id")
    }

    /// The class of the one node with this operator and these children, or nothing.
    pub fn lookup(&self, node: &Node) -> Option<u32> {
        self.class_of.get(node).copied()
    }
}

/// The refusal number unless the condition holds.
pub fn require(condition: bool, number: u32) -> Result<(), u32> {
    if condition {
        Ok(())
    } else {
        Err(number)
    }
}

/// The table of these words, or its refusal number.
pub fn read(words: &[u32]) -> Result<Table, u32> {
    require(words.len() >= 9, 1)?;
    let (i, c, n, k) = (words[0], words[1], words[2], words[3]);
    require(i <= MAX_RECORDS && c <= MAX_RECORDS && n <= MAX_RECORDS && k <= MAX_CHILDREN, 2)?;

    let (i, c, n, k) = (i as usize, c as usize, n as usize, k as usize);
    let find_at = 9;
    let classes_at = find_at + i;
    let nodes_at = classes_at + 3 * c;
    let children_at = nodes_at + 4 * n;
    let index_at = children_at + k;
    let offsets = [find_at, classes_at, nodes_at, children_at, index_at];
    require((0..5).all(|j| words[4 + j] as usize == offsets[j]), 1)?;
    require(words.len() == index_at + n, 1)?;

    let find = &words[find_at..classes_at];
    require(find.iter().all(|x| (*x as usize) < i && find[*x as usize] == *x), 3)?;

    let records: Vec<&[u32]> = words[classes_at..nodes_at].chunks(3).collect();
    let nodes: Vec<&[u32]> = words[nodes_at..children_at].chunks(4).collect();
    let children = &words[children_at..index_at];
    let index = &words[index_at..];
    good_classes(find, &records, n)?;
    let keys = good_nodes(find, &records, &nodes, children)?;
    good_index(&keys, index)?;

    let classes = records.iter().map(|r| Class { id: r[0], nodes: keys[range(r[1], r[2])].to_vec() });
    let class_of = keys.iter().cloned().zip(nodes.iter().map(|node| node[3])).collect();
    Ok(Table { find: find.to_vec(), classes: classes.collect(), class_of })
}

/// The places from `first`, `count` of them.
fn range(first: u32, count: u32) -> std::ops::Range<usize> {
    first as usize..first as usize + count as usize
}

/// Where the ranges (first, count) end if they join end to end from 0, or nothing.
fn joined_end(ranges: impl Iterator<Item = (u32, u32)>) -> Option<u64> {
    let mut end = 0;
    for (first, count) in ranges {
        if u64::from(first) != end {
            return None;
        }
        end += u64::from(count);
    }
    Some(end)
}

/// Refusal 4 unless the class records are good.
fn good_classes(find: &[u32], records: &[&[u32]], n: usize) -> Result<(), u32> {
    let ids: Vec<u32> = records.iter().map(|r| r[0]).collect();
    let canonical: Vec<u32> = (0..find.len() as u32).filter(|x| find[*x as usize] == *x).collect();
    require(ids == canonical, 4)?;
    require(records.iter().all(|r| r[2] >= 1), 4)?;
    require(joined_end(records.iter().map(|r| (r[1], r[2]))) == Some(n as u64), 4)
}

/// The nodes, or refusal 5 unless all of them are good.
fn good_nodes(find: &[u32], records: &[&[u32]], nodes: &[&[u32]], children: &[u32]) -> Result<Vec<Node>, u32> {
    require(nodes.iter().all(|node| node[1] <= MAX_ARITY), 5)?;
    require(joined_end(nodes.iter().map(|node| (node[2], node[1]))) == Some(children.len() as u64), 5)?;
    require(children.iter().all(|x| find.get(*x as usize) == Some(x)), 5)?;
    let key = |node: &&[u32]| Node { operator: node[0], children: children[range(node[2], node[1])].to_vec() };
    let keys: Vec<Node> = nodes.iter().map(key).collect();
    for record in records {
        let members = range(record[1], record[2]);
        require(members.clone().all(|x| nodes[x][3] == record[0]), 5)?;
        require(keys[members].windows(2).all(|two| two[0] < two[1]), 5)?;
    }
    Ok(keys)
}

/// Refusal 6 unless the index names nodes that rise strictly.
fn good_index(keys: &[Node], index: &[u32]) -> Result<(), u32> {
    require(index.iter().all(|x| (*x as usize) < keys.len()), 6)?;
    require(index.windows(2).all(|two| keys[two[0] as usize] < keys[two[1] as usize]), 6)
}
