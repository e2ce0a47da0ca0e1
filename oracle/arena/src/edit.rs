//! The edit on the original's interner. The text that we have of the original has no such call: this is a plain path copy by the calls that it has.
use glam::IVec3;
use reference::document01::{EMPTY, is_leaf};
use voxelis::utils::common::{child_index2, get_at_depth};
use voxelis::{BlockId, TraversalDepth, VoxInterner};

/// A voxel to be set: the arguments of an edit but for its root.
#[derive(Clone, Copy, Debug, PartialEq, Eq)]
pub struct Voxel {
    pub depth: u32,
    pub cell: [i32; 3],
    pub value: u16,
}

/// The original wants the two bytes of a branch from its caller.
pub fn branch(original: &mut VoxInterner<u16>, children: [BlockId; 8]) -> BlockId {
    let bits =
        |is: fn(u64) -> bool| (0..8).fold(0, |byte, i| byte | u8::from(is(children[i].raw())) << i);
    let (types, mask) = (bits(is_leaf), bits(|id| id != EMPTY));
    original.get_or_create_branch(children, types, mask)
}

/// The edit: the old root if the cell has the value already, else a path copy.
pub fn set_voxel(original: &mut VoxInterner<u16>, root: BlockId, voxel: Voxel) -> BlockId {
    let [x, y, z] = voxel.cell;
    let cell = IVec3::new(x, y, z);
    let whole = TraversalDepth::new(0, voxel.depth as u8);
    if get_at_depth(original, root, &cell, &whole).unwrap_or(0) == voxel.value {
        if !root.is_empty() {
            original.inc_ref(&root);
        }
        return root;
    }
    path_copy(original, root, 0, voxel.depth as usize, &cell, voxel.value)
}

/// The node copied with the cell below it set; the caller gets one reference.
fn path_copy(
    original: &mut VoxInterner<u16>,
    id: BlockId,
    level: usize,
    depth: usize,
    cell: &IVec3,
    value: u16,
) -> BlockId {
    if level == depth {
        return match value {
            0 => BlockId::EMPTY,
            value => original.get_or_create_leaf(value),
        };
    }
    let mut children = if id.is_empty() || id.is_leaf() {
        [id; 8]
    } else {
        original.get_children(&id)
    };
    let number = child_index2(cell, level, depth);
    let made = path_copy(original, children[number], level + 1, depth, cell, value);
    children[number] = made;
    let is_collapsing = made.is_empty() || made.is_leaf();
    if is_collapsing && children == [made; 8] {
        return made;
    }
    original.inc_child_refs(&children, number);
    branch(original, children)
}
