//! Shows that the comparisons of this program can fail: whatever is changed on purpose in what the port shows, in its holds or in its tables has to be seen.
use crate::cube::{Cube, Entry};
use crate::judge::{Asked, Expected, Shown, show};
use crate::site::{Site, Told};
use arena::call::Call;
use reference::document01::EMPTY;
use reference::reading::cells;

const DEPTH: u32 = 2;

/// Counts changes that are seen, and stops at one that isn't.
struct Seen(u32);

impl Seen {
    fn by(&mut self, judged: Told, what: &str) -> Told {
        self.0 += 1;
        match judged {
            Err(_) => Ok(()),
            Ok(()) => Err(format!("a change of {what} is not seen")),
        }
    }
}

fn list() -> [Entry; 3] {
    [([0, 0, 0], 5), ([1, 2, 3], 7), ([3, 3, 3], 5)].map(|(cell, value)| Entry { cell, value })
}

/// How many changes were made; the error is one that was not seen.
pub fn see() -> Result<u32, String> {
    let mut seen = Seen(0);
    shown(&mut seen)?;
    holds(&mut seen)?;
    answers(&mut seen)?;
    tables(&mut seen)?;
    Ok(seen.0)
}

/// What the port shows after the second order, and all that could be otherwise in it.
fn shown(seen: &mut Seen) -> Told {
    let mut site = Site::fresh(40);
    let [a, b, c] = list();
    let first = site.accept_list(EMPTY, DEPTH, &[a, b])?;
    let one = site.accept_list(first, DEPTH, &[c])?;
    let end = site.accept_list(EMPTY, DEPTH, &[c, b, a])?;
    let asked = Asked {
        cells: cells(DEPTH).collect(),
        is_expanded: true,
    };
    let cube = Cube::uniform(DEPTH, 0).with(&list());
    let expected = Expected {
        end: Some(one),
        holds: [1, 2],
        live: Some(site.live()),
        cube: &cube,
    };
    let right = show(&mut site, [first, end], DEPTH, &asked)?;
    right.judge(&asked, &expected)?;
    let mut change = |what: &str, change: &dyn Fn(&mut Shown)| {
        let mut other = right.clone();
        change(&mut other);
        seen.by(other.judge(&asked, &expected), what)
    };
    for bit in 0..64 {
        change("an id", &|shown| shown.end ^= 1 << bit)?;
    }
    for root in [0, 1] {
        change("the holds", &|shown| shown.holds[root] += 1)?;
        change("the holds", &|shown| shown.holds[root] -= 1)?;
    }
    change("the live nodes", &|shown| shown.live += 1)?;
    change("the live nodes", &|shown| shown.live -= 1)?;
    change("the cells looked up", &|shown| shown.values.truncate(63))?;
    for at in 0..asked.cells.len() {
        change("a value", &|shown| shown.values[at] ^= 1)?;
        change("a cube", &|shown| {
            if let Some(cube) = &mut shown.cube {
                cube.values[at] ^= 1;
            }
        })?;
    }
    // Another value of a cell in the plain cube.
    for wrong in [
        cube.with(&[Entry { value: 6, ..b }]),
        cube.with(&[Entry { value: 0, ..c }]),
    ] {
        let other = Expected {
            cube: &wrong,
            ..expected
        };
        seen.by(right.judge(&asked, &other), "the plain cube")?;
        seen.by(site.is_cube(end, &wrong), "the plain cube")?;
    }
    site.is_cube(end, &cube)
}

/// Holds that no caller was granted, and one that a caller keeps.
fn holds(seen: &mut Seen) -> Told {
    let mut site = Site::fresh(40);
    let end = site.accept_list(EMPTY, DEPTH, &list())?;
    site.same_holds(end)?;
    site.port_mut().call(&Call::Hold(end));
    seen.by(site.same_holds(end), "a hold")?;
    site.port_mut().call(&Call::Release(end));
    site.same_holds(end)?;
    seen.by(site.nothing_live(), "a root that is held at the end")?;
    site.port_mut().call(&Call::Hold(end));
    site.release(end)?;
    seen.by(site.nothing_live(), "a node that is live at the end")?;
    site.port_mut().call(&Call::Release(end));
    site.nothing_live()
}

/// The number of an answer, where another is expected.
fn answers(seen: &mut Seen) -> Told {
    let mut site = Site::fresh(3);
    let [a, b, _] = list();
    for (expected, call) in [(0, Call::Leaf(0)), (6, Call::Leaf(5)), (7, Call::Leaf(0))] {
        let answered = site.expect(call, expected);
        seen.by(answered.map(|_| ()), "an answer")?;
    }
    // Three slots have no room for two entries: that answers 11, and the empty list 0.
    for (expected, entries) in [(0, &[a, b][..]), (10, &[a, b]), (11, &[])] {
        let answered = site.expect_list(EMPTY, DEPTH, entries, expected);
        seen.by(answered.map(|_| ()), "a list's answer")?;
    }
    Ok(())
}

/// The state's two numbers, as the library's check sees them alone; and, beside document 01, a bit of any word of the tables.
fn tables(seen: &mut Seen) -> Told {
    let mut site = Site::fresh(12);
    site.accept_list(EMPTY, DEPTH, &list())?;
    state(&mut site, seen)?;
    let mut site = Site::documented(12);
    site.accept_list(EMPTY, DEPTH, &list())?;
    state(&mut site, seen)?;
    let [kids, facts] = [site.port().kids().len(), site.port().facts().len()];
    for at in 0..kids {
        site.port_mut().tables().kids[at] ^= 1;
        seen.by(site.well_formed(), "a child")?;
        site.port_mut().tables().kids[at] ^= 1;
    }
    for at in 0..facts {
        site.port_mut().tables().facts[at] ^= 1;
        seen.by(site.well_formed(), "a fact")?;
        site.port_mut().tables().facts[at] ^= 1;
    }
    for at in 0..site.port().find().len() {
        site.port_mut().tables().find[at] ^= 1;
        seen.by(site.well_formed(), "a cell of the finding table")?;
        site.port_mut().tables().find[at] ^= 1;
    }
    site.well_formed()
}

fn state(site: &mut Site, seen: &mut Seen) -> Told {
    let slots = site.port().arena.slots;
    for by in [1, 1 << 32] {
        for other in [slots.wrapping_sub(by), slots.wrapping_add(by)] {
            site.port_mut().arena.slots = other;
            seen.by(site.well_formed(), "the state")?;
        }
    }
    site.port_mut().arena.slots = slots;
    site.well_formed()
}
