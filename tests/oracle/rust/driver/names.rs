//! Where a random model takes its names from: few names, so that they collide.
use crate::rng::Rng;

#[derive(Clone, Copy)]
pub enum Sort {
    Package,
    Type,
    Field,
    Variant,
    Constant,
    Node,
    Variable,
}

pub const SORTS: usize = 7;

/// Usual names of each sort, in the order of `Sort`.
const USUAL: [&[&str]; SORTS] = [
    &["p0", "p1", "P"],
    &["T", "U", "V", "S", "TT", "E", "R"],
    &["u", "v", "w", "ux", "fé"],
    &["p", "q", "r", "Red", "q1"],
    &["k", "m", "K", "MAX", "m_"],
    &["f", "g", "h", "ff", "N", "f·g"],
    &["a", "b", "c", "d", "e", "x", "y", "da", "a1", "日本"],
];

/// Names at the limits: 64 bytes, and one the start of another.
const LONG: &str = "longlonglonglonglonglonglonglonglonglonglonglonglonglonglonglon1";
const LONG_START: &str = "longlonglonglonglonglonglonglonglonglonglonglonglonglonglonglon";

pub struct Names {
    pools: Vec<Vec<String>>,
    /// percent of picks that ignore the sort
    crossing: usize,
}

impl Names {
    pub fn new(rng: &mut Rng) -> Self {
        let crossing = *rng.pick(&[0, 0, 2, 10]);
        let shared = rng.percent(15).then(|| Self::subset(rng, &USUAL.concat(), 4, 8));
        let pools = (0..SORTS).map(|s| match &shared {
            Some(pool) => pool.clone(),
            None => Self::subset(rng, USUAL[s], 2, 6),
        });
        let mut names = Names { pools: pools.collect(), crossing };
        if rng.percent(3) {
            let sort = rng.below(SORTS);
            names.pools[sort].extend([LONG.to_string(), LONG_START.to_string()]);
        }
        names
    }

    /// These names for each sort, in the order of `Sort`.
    pub fn by_sort(pools: [&[&str]; SORTS], crossing: usize) -> Self {
        let owned = |pool: &[&str]| pool.iter().map(|s| s.to_string()).collect();
        Names { pools: pools.into_iter().map(owned).collect(), crossing }
    }

    /// The same names for every sort.
    pub fn of(names: &[&str]) -> Self {
        let pool: Vec<String> = names.iter().map(|s| s.to_string()).collect();
        Names { pools: vec![pool; SORTS], crossing: 0 }
    }

    fn subset(rng: &mut Rng, from: &[&str], lo: usize, hi: usize) -> Vec<String> {
        let mut all: Vec<String> = from.iter().map(|s| s.to_string()).collect();
        rng.shuffle(&mut all);
        all.truncate(rng.range(lo, hi));
        all
    }

    pub fn pick(&self, rng: &mut Rng, sort: Sort) -> String {
        let crossed = rng.percent(self.crossing);
        let sort = if crossed { rng.below(SORTS) } else { sort as usize };
        rng.pick(&self.pools[sort]).clone()
    }

    /// A name of the sort that is not among `taken`, if one is left.
    pub fn fresh(&self, rng: &mut Rng, sort: Sort, taken: &[String]) -> String {
        for _ in 0..12 {
            let name = self.pick(rng, sort);
            if !taken.contains(&name) {
                return name;
            }
        }
        self.pick(rng, sort)
    }

    /// A name of any sort.
    pub fn any(&self, rng: &mut Rng) -> String {
        let pool = rng.pick(&self.pools);
        rng.pick(pool).clone()
    }
}
