//! Plans of models: lists of nodes, made of cubes of several kinds or at random.
use reference::Random;
use reference::arena::TALLEST;
use reference::reading::{DEEPEST, cells};
use std::collections::HashMap;

/// A node of a plan. A child is named by its place in the plan, counted from 1; 0 is EMPTY.
#[derive(Clone, Copy, Debug, PartialEq, Eq, Hash)]
pub enum Node {
    Leaf(u16),
    Branch([usize; 8]),
}

/// The cells of a model: 8^depth values in the order of an expansion.
pub struct Cube {
    pub depth: u32,
    pub values: Vec<u16>,
}

impl Cube {
    fn new(depth: u32, value: impl FnMut([i32; 3]) -> u16) -> Self {
        Self {
            depth,
            values: cells(depth).map(value).collect(),
        }
    }

    /// A cube with nothing in it.
    pub fn nothing(depth: u32) -> Self {
        Self::new(depth, |_| 0)
    }

    /// The place of a cell among the values.
    pub fn place(&self, [x, y, z]: [i32; 3]) -> usize {
        (((y << self.depth) + z) << self.depth) as usize + x as usize
    }
}

/// Nodes, each after its children.
pub struct Plan {
    pub nodes: Vec<Node>,
    /// The node that is read at every depth.
    pub root: usize,
    /// What the root was made of.
    pub cube: Option<Cube>,
}

/// A plan in the making, each content once.
#[derive(Default)]
struct Nodes {
    list: Vec<Node>,
    known: HashMap<Node, usize>,
}

impl Nodes {
    fn name(&mut self, node: Node) -> usize {
        *self.known.entry(node).or_insert_with(|| {
            self.list.push(node);
            self.list.len()
        })
    }

    /// The octant of that side at a corner of the cube. A tidy one has no branch of eight times one leaf.
    fn octant(&mut self, cube: &Cube, is_tidy: bool, corner: [i32; 3], side: i32) -> usize {
        if side == 1 {
            return match cube.values[cube.place(corner)] {
                0 => 0,
                value => self.name(Node::Leaf(value)),
            };
        }
        let half = side / 2;
        let mut children = [0; 8];
        for (number, child) in (0..).zip(&mut children) {
            let bit = |axis: usize| corner[axis] + half * (number >> axis & 1);
            *child = self.octant(cube, is_tidy, [bit(0), bit(1), bit(2)], half);
        }
        let first = children[0];
        let is_one = children == [first; 8];
        if is_one && (first == 0 || is_tidy && matches!(self.list[first - 1], Node::Leaf(_))) {
            return first;
        }
        self.name(Node::Branch(children))
    }
}

impl Plan {
    pub fn of_cube(cube: Cube, is_tidy: bool) -> Self {
        let mut nodes = Nodes::default();
        let root = nodes.octant(&cube, is_tidy, [0; 3], 1 << cube.depth);
        Self {
            nodes: nodes.list,
            root,
            cube: Some(cube),
        }
    }

    /// Cells set here and there, in a small part of the cube or in all of it.
    fn sparse(random: &mut Random, depth: u32) -> Self {
        let mut cube = Cube::nothing(depth);
        let values = random.one_of(&[1, 3, 65_535]);
        let side = 1 << (depth - random.below(1 + depth as usize / 2) as u32);
        for _ in 0..1 + random.below(1_000) {
            let cell = [(); 3].map(|()| random.below(side) as i32);
            let place = cube.place(cell);
            cube.values[place] = 1 + random.below(values) as u16;
        }
        Self::of_cube(cube, random.once_in(2))
    }

    /// Ground in layers: y is up, and the height depends on x and z.
    fn hill(random: &mut Random, depth: u32) -> Self {
        let side = 1 << depth;
        let [top_x, top_z, top] = [(); 3].map(|()| random.below(side) as i32);
        let layer = 1 + random.below(1 + side / 8) as i32;
        let slope = 1 + random.below(side) as i32;
        let cube = Cube::new(depth, |[x, y, z]| {
            let away = (x - top_x).pow(2) + (z - top_z).pow(2);
            match top - away / slope {
                height if y <= height => 1 + (y / layer) as u16,
                _ => 0,
            }
        });
        Self::of_cube(cube, !random.once_in(4))
    }

    /// Two values in turn, one of which may be nothing.
    fn checkerboard(random: &mut Random, depth: u32) -> Self {
        let two = [1 + random.below(65_535) as u16, random.below(3) as u16];
        Self::of_cube(
            Cube::new(depth, |[x, y, z]| two[((x ^ y ^ z) & 1) as usize]),
            true,
        )
    }

    /// One value everywhere: one leaf, or a tower of branches over it.
    fn uniform(random: &mut Random, depth: u32) -> Self {
        let value = random.one_of(&[1, 7, 8, 65_535]);
        Self::of_cube(Cube::new(depth, |_| value), random.once_in(2))
    }

    /// A value of its own in each cell.
    fn noise(random: &mut Random, depth: u32) -> Self {
        Self::of_cube(
            Cube::new(depth.min(4), |_| random.below(65_536) as u16),
            random.once_in(2),
        )
    }

    /// Branches of one to four nodes made before them, in places at random, up to the tallest; at times one node in all eight.
    fn at_random(random: &mut Random) -> Self {
        let values = random.one_of(&[8, 100, 65_535]);
        let mut nodes: Vec<Node> = (0..1 + random.below(10))
            .map(|_| Node::Leaf(1 + random.below(values) as u16))
            .collect();
        let mut heights = vec![0; nodes.len()];
        for _ in 0..1 + random.below(60) {
            let mut few = vec![];
            for _ in 0..1 + random.below(4) {
                // The taller of two, so that trees grow up.
                let [one, other] = [(); 2].map(|()| random.below(nodes.len()));
                let taller = [one, other].into_iter().max_by_key(|at| heights[*at]);
                few.extend(taller.filter(|at| heights[*at] < TALLEST));
            }
            let Some(first) = few.first() else { continue };
            let mut children = [0; 8];
            children[random.below(8)] = first + 1;
            let is_filled = random.once_in(8);
            for child in &mut children {
                if is_filled {
                    *child = first + 1;
                } else if random.once_in(2) {
                    *child = random.one_of(&few) + 1;
                }
            }
            let below = children.iter().filter(|child| **child != 0);
            heights.push(1 + below.map(|child| heights[child - 1]).max().unwrap());
            nodes.push(Node::Branch(children));
        }
        let tallest = (1..=nodes.len()).max_by_key(|at| heights[at - 1]);
        Self {
            root: tallest.unwrap(),
            nodes,
            cube: None,
        }
    }

    /// The name of a kind, and a plan of it.
    pub fn any(random: &mut Random) -> (&'static str, Self) {
        let depth = 1 + random.below(DEEPEST as usize) as u32;
        match random.below(8) {
            0 | 1 => ("sparse", Self::sparse(random, depth)),
            2 => ("hill", Self::hill(random, depth)),
            3 => ("checkerboard", Self::checkerboard(random, depth)),
            4 => ("uniform", Self::uniform(random, depth)),
            5 => ("noise", Self::noise(random, depth)),
            _ => ("branches at random", Self::at_random(random)),
        }
    }
}
