//! The same nodes in the port's arena and in the original's.
use crate::plan::{Cube, Node, Plan};
use arena::beside::{Beside, Original};
use arena::call::Call;
use arena::edit::Voxel;
use arena::lent::{Guarded, Lent};
use arena::original::original_of;
use arena::run;
use arena::tally::Tally;
use glam::IVec3;
use reference::arena::MOST_CAPACITY;
use reference::document01::{EMPTY, index, is_leaf, mask, types};
use reference::tables::{FLOOR, HEIGHT, VALUE};
use reference::{Random, answer_or_panic};
use voxelis::utils::common::{get_at_depth, to_vec};
use voxelis::{BlockId, MaxDepth, TraversalDepth, VoxInterner};

/// What stands around a lent cube.
const GUARD: u16 = 0x5AC3;

pub struct Model {
    pub port: Lent,
    original: VoxInterner<u16>,
    /// For each slot of the port's arena with a node, the id of the same node in the original's.
    twins: Vec<u64>,
}

/// The port's expansion into a cube of these values: the number, and the cube afterwards. The error is a write outside of it.
pub fn expand(
    lent: &mut Lent,
    id: u64,
    depth: u32,
    lent_cube: &[u16],
) -> Result<(u32, Vec<u16>), String> {
    let mut cube = Guarded::new(lent_cube, GUARD);
    let no = lent.expand(id, depth, cube.inside_mut());
    if !cube.is_intact() {
        return Err(format!("to_vec of {id:#x} writes outside its cube"));
    }
    Ok((no, cube.inside().to_vec()))
}

/// Does every call that makes a model; each is compared with document 01 and with the original.
struct Maker {
    beside: Beside,
    tally: Tally,
}

impl Maker {
    fn call(&mut self, call: Call<u64>) -> Result<u64, String> {
        let answered = self.beside.call(&call, &mut self.tally)?;
        match answered.no {
            0 => Ok(answered.id),
            no => Err(format!("{call:x?} is refused with {no}")),
        }
    }

    /// A node of a plan, of which these ids were made so far.
    fn node(&mut self, node: Node, ids: &[u64]) -> Result<u64, String> {
        match node {
            Node::Leaf(value) => self.call(Call::Leaf(value)),
            Node::Branch(children) => {
                let children =
                    children.map(|child| if child == 0 { EMPTY } else { ids[child - 1] });
                for id in children.into_iter().filter(|id| *id != EMPTY) {
                    self.call(Call::Hold(id))?;
                }
                self.call(Call::Branch(children))
            }
        }
    }
}

impl Model {
    fn of_beside(mut beside: Beside) -> Result<Self, String> {
        beside.same_everywhere(&mut Tally::default())?;
        let (port, companion) = beside.into_parts();
        let (original, twins) = companion.unwrap().into_parts();
        Ok(Self {
            port,
            original,
            twins,
        })
    }

    /// Makes a plan on both sides, after some nodes that come and go: the root is held, and all that it does not need is released. Answers the root too.
    pub fn of_plan(plan: &Plan, random: &mut Random) -> Result<(Self, u64), String> {
        let spare = 1 + random.one_of(&[0, 0, 1, 20]);
        let capacity = (plan.nodes.len() + spare).clamp(2, MOST_CAPACITY);
        let mut maker = Maker {
            beside: Beside::fresh(capacity, Original::Beside),
            tally: Tally::default(),
        };
        for value in 1..=random.below(4) as u16 {
            let id = maker.call(Call::Leaf(value))?;
            maker.call(Call::Release(id))?;
        }
        let mut ids = vec![];
        for node in &plan.nodes {
            ids.push(maker.node(*node, &ids)?);
        }
        for (name, id) in (1..).zip(&ids) {
            if name != plan.root {
                maker.call(Call::Release(*id))?;
            }
        }
        let root = if plan.root == 0 {
            EMPTY
        } else {
            ids[plan.root - 1]
        };
        Ok((Self::of_beside(maker.beside)?, root))
    }

    /// What a sequence of calls at random leaves.
    pub fn of_sequence(capacity: usize, calls: u32, seed: u64) -> Result<Self, String> {
        let plan = run::Plan {
            capacity,
            calls,
            seed,
            original: Original::Beside,
        };
        Self::of_beside(run::run(&plan, &mut Tally::default())?)
    }

    /// Edits of the port at random from EMPTY, the old root released after each; the cube that they leave, and the root. The nodes that are there at
    /// the end are made in the original, children first.
    pub fn of_edits(random: &mut Random) -> Result<(Self, u64, Cube), String> {
        let mut port = Lent::fresh(8_192);
        let mut cube = Cube::nothing(1 + random.below(6) as u32);
        let side = (1usize << cube.depth).min(random.one_of(&[2, 8, 64]));
        let values = random.one_of(&[2, 4, 60_000]);
        let mut root = EMPTY;
        for _ in 0..1 + random.below(600) {
            let voxel = Voxel {
                depth: cube.depth,
                cell: [(); 3].map(|()| random.below(side) as i32),
                value: random.below(values) as u16,
            };
            let made = port.call(&Call::Edit(root, voxel));
            if made.no != 0 {
                return Err(format!("an edit is refused with {}", made.no));
            }
            let released = port.call(&Call::Release(root));
            if released.no != 0 {
                return Err(format!("a release is refused with {}", released.no));
            }
            root = made.id;
            let place = cube.place(voxel.cell);
            cube.values[place] = voxel.value;
        }
        port.view().well_formed()?;
        let (original, twins) = mirror(&port);
        let model = Self {
            port,
            original,
            twins,
        };
        Ok((model, root, cube))
    }

    /// The ids of all nodes.
    pub fn live(&self) -> Vec<u64> {
        let view = self.port.view();
        let owns = (0..view.capacity).map(|slot| view.own(slot));
        owns.filter(|own| *own >= FLOOR).collect()
    }

    /// The original's id of an EMPTY or live id.
    fn twin(&self, id: u64) -> BlockId {
        BlockId::from_raw(match id {
            EMPTY => EMPTY,
            id => self.twins[index(id) as usize],
        })
    }

    /// The original's expansion.
    pub fn original_cube(&self, id: u64, depth: u32) -> Result<Vec<u16>, String> {
        let twin = self.twin(id);
        answer_or_panic(|| to_vec(&self.original, &twin, MaxDepth::new(depth as u8)))
            .map_err(|words| format!("the original's to_vec of {id:#x} panics: {words}"))
    }

    /// The original's lookups from a level on, of EMPTY or a live node.
    pub fn original_looks(
        &self,
        id: u64,
        level: u32,
        depth: u32,
        cells: impl Iterator<Item = [i32; 3]>,
    ) -> Result<Vec<Option<u16>>, String> {
        let twin = self.twin(id);
        let depths = TraversalDepth::new(level as u8, depth as u8);
        let look =
            |[x, y, z]: [i32; 3]| get_at_depth(&self.original, twin, &IVec3::new(x, y, z), &depths);
        answer_or_panic(|| cells.map(look).collect())
            .map_err(|words| format!("the original's get_at_depth of {id:#x} panics: {words}"))
    }
}

/// The nodes of well-formed tables made in an original arena, children first; for each slot its twin.
fn mirror(port: &Lent) -> (VoxInterner<u16>, Vec<u64>) {
    let view = port.view();
    let mut original = original_of(view.capacity);
    let mut twins = vec![EMPTY; view.capacity];
    let mut slots: Vec<usize> = (0..view.capacity)
        .filter(|slot| view.own(*slot) >= FLOOR)
        .collect();
    slots.sort_by_key(|slot| view.fact(*slot, HEIGHT));
    for slot in slots {
        let own = view.own(slot);
        let twin = if is_leaf(own) {
            original.get_or_create_leaf(view.fact(slot, VALUE) as u16)
        } else {
            let children: [u64; 8] = view.kids[8 * slot..8 * slot + 8].try_into().unwrap();
            let children = children.map(|id| match id {
                EMPTY => BlockId::EMPTY,
                id => BlockId::from_raw(twins[index(id) as usize]),
            });
            for id in children.iter().filter(|id| !id.is_empty()) {
                original.inc_ref(id);
            }
            original.get_or_create_branch(children, types(own), mask(own))
        };
        twins[slot] = twin.raw();
    }
    (original, twins)
}
