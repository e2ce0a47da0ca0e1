//! One arena in which lists are entered: the roots that are held in it, what others hold, and the passing roots of the orders.
use crate::cube::{Cube, Entry};
use crate::lists::{Choice, KINDS, Kind, shuffled};
use crate::order::{Order, PASSING};
use crate::runs::{Document, Plan};
use crate::site::{Site, Told};
use crate::tally::Tally;
use arena::call::{Answered, Call};
use reference::Random;
use reference::document01::EMPTY;

/// How many models are held at a time; and, of cubes, how many cells they may have together.
const MOST_MODELS: usize = 6;
const MOST_CELLS: usize = 4 << 18;
/// A list from a model is entered at a deeper depth, one in so many where there is one.
const DEEPENED_ONE_IN: usize = 16;
/// After so many refused orders one upon the other something is given back.
const STUCK: u32 = 3;
/// Lists to this length are printed with a difference.
const PRINTED: usize = 60;

/// A tidy root with one hold, and its cube.
pub struct Model {
    pub root: u64,
    pub cube: Cube,
}

pub struct Yard<'a> {
    pub plan: &'a Plan,
    pub site: Site,
    pub random: Random,
    pub tally: &'a mut Tally,
    pub values: Vec<u16>,
    pub models: Vec<Model>,
    /// What others hold, one hold each; an id may stand here several times.
    pub others: Vec<u64>,
    /// Passing roots of the list's orders that are not released yet, one hold each.
    pub passing: Vec<u64>,
    /// The root that the list starts from, and the ends of its orders, one hold each.
    pub start: u64,
    pub ends: Vec<u64>,
    /// Refused orders since the last one that ended.
    pub stuck: u32,
}

impl<'a> Yard<'a> {
    pub fn new(plan: &'a Plan, tally: &'a mut Tally) -> Self {
        let site = match plan.document {
            Document::Absent => Site::fresh(plan.capacity),
            Document::Beside => Site::documented(plan.capacity),
        };
        let mut random = Random::new(plan.seed);
        let values = choose_values(&mut random);
        Self {
            plan,
            site,
            random,
            tally,
            values,
            models: vec![],
            others: vec![],
            passing: vec![],
            start: EMPTY,
            ends: vec![],
            stuck: 0,
        }
    }

    /// One list, entered in its orders, each of which is compared.
    pub fn list(&mut self) -> Told {
        self.make_room()?;
        let Model { root, mut cube } = self.choose_start()?;
        self.start = root;
        let kind = self.random.one_of(&KINDS);
        let choice = Choice {
            cube: &cube,
            values: &self.values,
            longest: self.plan.longest,
        };
        let orders = choice.orders(kind, &mut self.random);
        self.tally.kinds[kind as usize] += 1;
        self.tally.lists[cube.depth as usize] += 1;
        match root {
            EMPTY => self.tally.from_empty += 1,
            _ => self.tally.from_root += 1,
        }
        let busy = match self.random.once_in(2) {
            true => None,
            false => Some(self.random.one_of(&[1, 2, 3, 8])),
        };
        for list in &orders {
            let passing = self.random.one_of(&PASSING);
            let order = Order {
                list,
                passing,
                busy,
            };
            self.order(&order, &mut cube)
                .map_err(|words| in_words(root, cube.depth, kind, &orders, &words))?;
        }
        let is_parted = !self.ends.is_empty() && self.ends.len() < orders.len();
        self.tally.parted += u64::from(is_parted);
        self.end_list(cube, &orders[0])
    }

    /// EMPTY, a leaf, or a model that is held, at its own depth or a deeper one. The hold on it goes to the list.
    fn choose_start(&mut self) -> Result<Model, String> {
        let depth = 1 + self.random.below(self.plan.deepest as usize) as u32;
        if self.random.once_in(16) {
            let value = self.random.one_of(&self.values);
            if let Answered { no: 0, id, .. } = self.site.call(Call::Leaf(value))? {
                let cube = Cube::uniform(depth, value);
                return Ok(Model { root: id, cube });
            }
        }
        if self.models.is_empty() || self.random.once_in(3) {
            let cube = Cube::uniform(depth, 0);
            return Ok(Model { root: EMPTY, cube });
        }
        let at = self.random.below(self.models.len());
        let mut model = self.models.swap_remove(at);
        if depth > model.cube.depth && self.random.once_in(DEEPENED_ONE_IN) {
            model.cube = model.cube.at_depth(depth);
        }
        Ok(model)
    }

    /// All orders of a list have been entered: what they hold is given back. The start stays as a model, and their end may.
    fn end_list(&mut self, cube: Cube, list: &[Entry]) -> Told {
        while !self.passing.is_empty() {
            self.release_passing()?;
        }
        let mut ends = shuffled(&self.ends, &mut self.random);
        self.ends.clear();
        if let Some(end) = ends.pop() {
            match self.random.once_in(2) {
                true => self.models.push(Model {
                    root: end,
                    cube: cube.with(list),
                }),
                false => self.site.release(end)?,
            }
        }
        for end in ends {
            self.site.release(end)?;
        }
        let root = std::mem::replace(&mut self.start, EMPTY);
        if root != EMPTY {
            self.models.push(Model { root, cube });
        }
        if self.random.once_in(64) {
            self.same_models()?;
        }
        Ok(())
    }

    /// Every model that is held still reads as it did, in full, and the tables are well formed.
    fn same_models(&mut self) -> Told {
        for model in &self.models {
            self.site.is_cube(model.root, &model.cube)?;
            self.site.same_holds(model.root)?;
            self.tally.cubes += 1;
        }
        for id in &self.others {
            self.site.same_holds(*id)?;
        }
        self.tally.checks += 1;
        self.site.well_formed()
    }

    /// Gives back what is too much, and more if the arena is full.
    fn make_room(&mut self) -> Told {
        let cells = |models: &[Model]| -> usize {
            models.iter().map(|model| model.cube.values.len()).sum()
        };
        while self.models.len() > MOST_MODELS || cells(&self.models) > MOST_CELLS {
            self.drop_model()?;
        }
        if self.stuck >= STUCK {
            self.stuck = 0;
            self.drop_others()?;
            for _ in 0..self.random.below(self.models.len() + 1) {
                self.drop_model()?;
            }
        }
        if self.random.once_in(8) {
            self.drop_others()?;
        }
        Ok(())
    }

    fn drop_model(&mut self) -> Told {
        let at = self.random.below(self.models.len());
        let model = self.models.swap_remove(at);
        self.site.release(model.root)
    }

    fn drop_others(&mut self) -> Told {
        for id in shuffled(&self.others, &mut self.random) {
            self.site.release(id)?;
        }
        self.others.clear();
        Ok(())
    }

    /// Gives everything back: then nothing is live.
    pub fn close(&mut self) -> Told {
        self.same_models()?;
        self.drop_others()?;
        while !self.models.is_empty() {
            self.drop_model()?;
        }
        self.tally.checks += 1;
        self.site.nothing_live()
    }
}

/// The values of one run: few, so that nodes meet, or many.
fn choose_values(random: &mut Random) -> Vec<u16> {
    match random.below(4) {
        0 => vec![1],
        1 => vec![1, 2],
        2 => vec![1, 7, 8, 0x7FFF, 0x8000, 65_535],
        _ => (0..40).map(|_| 1 + random.below(65_535) as u16).collect(),
    }
}

/// A difference, with the orders that show it.
fn in_words(start: u64, depth: u32, kind: Kind, orders: &[Vec<Entry>], words: &str) -> String {
    let mut lines = vec![format!(
        "from {start:#x} at depth {depth}, {kind:?}: {words}"
    )];
    let printed = orders.iter().filter(|list| list.len() <= PRINTED);
    lines.extend(printed.map(|list| format!("    {list:?}")));
    lines.join("\n")
}
