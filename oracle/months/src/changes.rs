//! Shows that the comparisons of this program can fail: whatever of an answer, a list or a table is changed on purpose has to be seen.
use crate::list;
use crate::sides::Told;
use arena::call::Call;
use arena::edit::Voxel;
use arena::lent::Lent;
use port::compare::Compared;
use reference::document01::EMPTY;
use reference::months::Comparison;

const DEPTH: u32 = 2;
/// Places of the list past the last cell.
const MORE: usize = 3;

/// Two roots that differ in three cells: one that only the left has, one that only the right has, one with two values.
fn two_roots(lent: &mut Lent) -> Result<[u64; 2], String> {
    let mut roots = [EMPTY; 2];
    for (root, cells) in roots.iter_mut().zip([[(1, 5), (2, 7)], [(2, 8), (3, 6)]]) {
        for (x, value) in cells {
            let voxel = Voxel {
                depth: DEPTH,
                cell: [x, 2, 1],
                value,
            };
            let answered = lent.call(&Call::Edit(*root, voxel));
            if answered.no != 0 {
                return Err(format!("an edit is refused with {}", answered.no));
            }
            *root = answered.id;
        }
    }
    Ok(roots)
}

/// Counts changes that are seen, and stops at one that isn't.
struct Seen(u32);

impl Seen {
    fn by(&mut self, judged: Told, what: &str) -> Told {
        self.0 += 1;
        match judged {
            Err(_) => Ok(()),
            Ok(()) => Err(format!("a change of {what} is not seen")),
        }
    }
}

/// How many changes were made; the error is one that was not seen.
pub fn see() -> Result<u32, String> {
    let mut tables = Lent::fresh(32);
    let [left, right] = two_roots(&mut tables)?;
    let view = tables.view();
    let comparison = Comparison::new(&view, left, right, DEPTH);
    let cells = comparison
        .answer([usize::MAX; 3])
        .map_or(0, |found| found.cells.len());
    let mut seen = Seen(0);
    for room in [cells + MORE, cells, cells - 1] {
        let expected = comparison.answer([room; 3]);
        let call = |copy: &mut Lent| {
            let mut list = list::Lent::new([room; 3], 0x0123_4567_89AB_CDEF);
            let answered = copy.compare(left, right, DEPTH, &mut list.parts());
            (list, answered)
        };
        let mut copy = tables.clone();
        let (mut list, answered) = call(&mut copy);
        list.judge(&answered, expected, false)?;
        let others = [
            Compared {
                no: answered.no ^ 1,
                ..answered
            },
            Compared {
                count: answered.count + 1,
                ..answered
            },
            Compared {
                opened: answered.opened + 1,
                ..answered
            },
        ];
        for other in others {
            seen.by(list.judge(&other, expected, false), "an answer")?;
        }
        if expected.is_ok() {
            seen.by(list.judge(&answered, expected, true), "the sides")?;
        }
        for place in 0..room {
            list.codes.inside_mut()[place] ^= 1;
            seen.by(list.judge(&answered, expected, false), "a code")?;
            list.codes.inside_mut()[place] ^= 1;
            list.lefts.inside_mut()[place] ^= 1;
            seen.by(list.judge(&answered, expected, false), "a left value")?;
            list.lefts.inside_mut()[place] ^= 1;
            list.rights.inside_mut()[place] ^= 1;
            seen.by(list.judge(&answered, expected, false), "a right value")?;
            list.rights.inside_mut()[place] ^= 1;
        }
        list.judge(&answered, expected, false)?;
        let is_same = |copy: &Lent| match copy.is_same(&tables) {
            true => Ok(()),
            false => Err("the tables differ".to_string()),
        };
        is_same(&copy)?;
        copy.tables().kids[9] ^= 1;
        seen.by(is_same(&copy), "a table")?;
    }
    Ok(seen.0)
}
