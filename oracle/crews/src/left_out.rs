//! Lists at random with a term of document 02 left out: what comes of it, and how often.
use crate::cube::{Cube, Entry};
use crate::lists::{Choice, Kind};
use crate::site::{Site, Told};
use crate::terms::eight_of;
use arena::call::{Answered, Call};
use reference::Random;
use reference::document01::EMPTY;
use std::fmt;

/// The values of the lists, and how long these are at most.
const VALUES: [u16; 3] = [1, 2, 3];
const LONGEST: usize = 8;
/// Arenas of 4 slots and up to so many more, and cubes to this depth.
const MORE_SLOTS: usize = 60;
const DEEPEST: usize = 3;

/// How often something came about, and of how many.
#[derive(Clone, Copy, Default)]
pub struct Part {
    times: u64,
    all: u64,
}

impl Part {
    fn count(&mut self, is_so: bool) {
        self.times += u64::from(is_so);
        self.all += 1;
    }

    /// Counts a pair of orders that both ended, and whether they ended in two ids.
    fn count_ends(&mut self, one: Answered, other: Answered) {
        if one.no == 0 && other.no == 0 {
            self.count(one.id != other.id);
        }
    }
}

impl fmt::Display for Part {
    fn fmt(&self, f: &mut fmt::Formatter<'_>) -> fmt::Result {
        write!(f, "{} of {}", self.times, self.all)
    }
}

/// What comes of it where a term is left out.
#[derive(Default)]
pub struct Found {
    /// The first end is released: two orders end in two ids.
    pub end_released: Part,
    /// The start is released: the second order is refused with 4.
    pub start_released: Part,
    /// A fresh arena is made: two orders end in two ids.
    pub fresh_between: Part,
    /// The start is not tidy: two lists with the same last values end in two ids.
    pub untidy: Part,
    /// The start is not tidy: two orders of distinct cells end in two ids.
    pub untidy_distinct: Part,
}

/// Two ids always are ids of one cube. The error is a cube that is not as it should be, or a term that no list needs. No list is known that needs a tidy start where
/// its cells are distinct.
pub fn at_random(seed: u64, rounds: u64) -> Result<Found, String> {
    let mut found = Found::default();
    let mut random = Random::new(seed);
    for _ in 0..rounds {
        end_released(&mut random, &mut found.end_released)?;
        start_released(&mut random, &mut found.start_released)?;
        fresh_between(&mut random, &mut found.fresh_between)?;
        untidy(&mut random, Kind::Repeated, &mut found.untidy)?;
        untidy(&mut random, Kind::Distinct, &mut found.untidy_distinct)?;
    }
    let needed = [
        ("the first end is held", found.end_released),
        ("the start is held", found.start_released),
        ("no fresh arena is made", found.fresh_between),
        ("the start is tidy", found.untidy),
    ];
    for (term, part) in needed {
        if part.times == 0 {
            return Err(format!("no list at random shows why {term}"));
        }
    }
    Ok(found)
}

fn end_released(random: &mut Random, part: &mut Part) -> Told {
    let Some(mut small) = Small::tidy(random)? else {
        return Ok(());
    };
    let one = small.enter(0)?;
    if one.no == 0 {
        small.site.release(one.id)?;
    }
    let other = small.enter(1)?;
    part.count_ends(one, other);
    Ok(())
}

/// The start may be live even so, as a part of the first end.
fn start_released(random: &mut Random, part: &mut Part) -> Told {
    let Some(mut small) = Small::tidy(random)? else {
        return Ok(());
    };
    small.enter(0)?;
    small.site.release(small.start)?;
    part.count(small.enter(1)?.no == 4);
    Ok(())
}

fn fresh_between(random: &mut Random, part: &mut Part) -> Told {
    let mut small = Small::empty(random);
    let one = small.enter(0)?;
    small.site.begin_anew()?;
    let other = small.enter(1)?;
    part.count_ends(one, other);
    Ok(())
}

fn untidy(random: &mut Random, kind: Kind, part: &mut Part) -> Told {
    let Some(mut small) = Small::untidy(random, kind)? else {
        return Ok(());
    };
    let (one, other) = (small.enter(0)?, small.enter(1)?);
    part.count_ends(one, other);
    Ok(())
}

/// A small arena, a root in it, and two lists that end in one cube.
struct Small {
    site: Site,
    start: u64,
    cube: Cube,
    lists: [Vec<Entry>; 2],
}

impl Small {
    /// From EMPTY.
    fn empty(random: &mut Random) -> Self {
        let site = Site::fresh(4 + random.below(MORE_SLOTS));
        let cube = Cube::uniform(1 + random.below(DEEPEST) as u32, 0);
        let lists = two_lists(&cube, Kind::Distinct, random);
        Self {
            site,
            start: EMPTY,
            cube,
            lists,
        }
    }

    /// From another root in place of EMPTY.
    fn from(self, start: u64, kind: Kind, random: &mut Random) -> Result<Self, String> {
        let mut site = self.site;
        let cube = site.expand(start, self.cube.depth)?;
        let lists = two_lists(&cube, kind, random);
        Ok(Self {
            site,
            start,
            cube,
            lists,
        })
    }

    /// From a root of edits; none if there is no room for it.
    fn tidy(random: &mut Random) -> Result<Option<Self>, String> {
        let mut small = Self::empty(random);
        match small.enter(0)? {
            Answered { no: 0, id, .. } => small.from(id, Kind::Distinct, random).map(Some),
            _ => Ok(None),
        }
    }

    /// From a root with branches of eight times one leaf in it; none if there is no room for it.
    fn untidy(random: &mut Random, kind: Kind) -> Result<Option<Self>, String> {
        let mut small = Self::empty(random);
        match untidy_root(&mut small.site, small.cube.depth, random)? {
            Some(root) => small.from(root, kind, random).map(Some),
            None => Ok(None),
        }
    }

    /// Enters one of the lists. Its end, if there is one, has to be its cube.
    fn enter(&mut self, number: usize) -> Result<Answered, String> {
        let list = &self.lists[number];
        let answered = self.site.enter_list(self.start, self.cube.depth, list)?;
        if answered.no == 0 {
            self.site.is_cube(answered.id, &self.cube.with(list))?;
        }
        Ok(answered)
    }
}

fn two_lists(cube: &Cube, kind: Kind, random: &mut Random) -> [Vec<Entry>; 2] {
    let choice = Choice {
        cube,
        values: &VALUES,
        longest: LONGEST,
    };
    let mut lists = choice.orders(kind, random).into_iter();
    [(); 2].map(|()| lists.next().unwrap_or_default())
}

/// A branch of eight times one leaf; or a branch of such branches, a leaf and EMPTY.
fn untidy_root(site: &mut Site, depth: u32, random: &mut Random) -> Result<Option<u64>, String> {
    let Some(eight) = eight_of(site, random.one_of(&VALUES))? else {
        return Ok(None);
    };
    if depth == 1 || random.once_in(3) {
        return Ok(Some(eight));
    }
    let leaf = match site.call(Call::Leaf(random.one_of(&VALUES)))? {
        Answered { no: 0, id, .. } => id,
        _ => return Ok(None),
    };
    let mut children = [(); 8].map(|()| random.one_of(&[eight, eight, leaf, EMPTY]));
    children[random.below(8)] = eight;
    let answered = site.branch_of(children)?;
    Ok((answered.no == 0).then_some(answered.id))
}
