//! Grade structures: join and product tables with their unit.

use super::rng::Rng;

/// The tables of one grade structure; `name` says where it comes from.
#[derive(Clone, Debug)]
pub struct GradeTables {
    pub name: String,
    pub k: usize,
    pub e: usize,
    pub join: Vec<u8>,
    pub product: Vec<u8>,
}

impl GradeTables {
    pub fn from_rules(
        name: impl Into<String>,
        k: usize,
        e: usize,
        join: impl Fn(usize, usize) -> usize,
        product: impl Fn(usize, usize) -> usize,
    ) -> Self {
        let table =
            |rule: &dyn Fn(usize, usize) -> usize| (0..k * k).map(|i| rule(i / k, i % k) as u8).collect::<Vec<u8>>();
        GradeTables { name: name.into(), k, e, join: table(&join), product: table(&product) }
    }

    /// The tables of a structure whose grades are listed as things of another kind; the first thing is grade 0. Join
    /// and product of listed things must be listed too.
    fn from_things<T: PartialEq>(
        name: impl Into<String>,
        things: &[T],
        unit: &T,
        join: impl Fn(&T, &T) -> T,
        product: impl Fn(&T, &T) -> T,
    ) -> Self {
        let number = |thing: &T| things.iter().position(|t| t == thing).expect("the list is closed");
        Self::from_rules(
            name,
            things.len(),
            number(unit),
            |a, b| number(&join(&things[a], &things[b])),
            |a, b| number(&product(&things[a], &things[b])),
        )
    }

    pub fn join(&self, a: usize, b: usize) -> usize {
        usize::from(self.join[a * self.k + b])
    }

    pub fn product(&self, a: usize, b: usize) -> usize {
        usize::from(self.product[a * self.k + b])
    }

    /// The same structure with grade a called `to[a]`.
    pub fn renumbered(&self, to: &[usize]) -> Self {
        let mut from = vec![0; self.k];
        for (old, &new) in to.iter().enumerate() {
            from[new] = old;
        }
        Self::from_rules(
            format!("renumbered-{}", self.name),
            self.k,
            to[self.e],
            |a, b| to[self.join(from[a], from[b])],
            |a, b| to[self.product(from[a], from[b])],
        )
    }

    /// The same structure with its grades numbered at random, 0 staying at 0.
    pub fn shuffled(&self, rng: &mut Rng) -> Self {
        let mut to: Vec<usize> = (0..self.k).collect();
        rng.shuffle(&mut to[1..]);
        self.renumbered(&to)
    }

    /// The same grades multiplied the other way round.
    pub fn turned(&self) -> Self {
        Self::from_rules(
            format!("turned-{}", self.name),
            self.k,
            self.e,
            |a, b| self.join(a, b),
            |a, b| self.product(b, a),
        )
    }
}

/// A chain with the smaller as product.
pub fn chain(k: usize) -> GradeTables {
    GradeTables::from_rules(format!("chain{k}"), k, k - 1, usize::max, usize::min)
}

/// A chain with a + b - (k - 1), at least 0, as product.
pub fn lukasiewicz(k: usize) -> GradeTables {
    let top = k - 1;
    GradeTables::from_rules(format!("lukasiewicz{k}"), k, top, usize::max, |a, b| (a + b).saturating_sub(top))
}

/// A chain whose unit may stand anywhere above 0: the larger of two grades from the unit up, else the smaller.
pub fn middle_unit(k: usize, e: usize) -> GradeTables {
    let product = |a: usize, b: usize| if a >= e && b >= e { a.max(b) } else { a.min(b) };
    GradeTables::from_rules(format!("middle{k}"), k, e, usize::max, product)
}

/// Subsets of some points: union and intersection.
pub fn power_set(points: u32) -> GradeTables {
    let k = 1 << points;
    GradeTables::from_rules(format!("power{points}"), k, k - 1, |a, b| a | b, |a, b| a & b)
}

/// Relations on two points: union and composition. Bit 2i + j relates i to j.
pub fn relations() -> GradeTables {
    let compose = |a: usize, b: usize| {
        let related = |i: usize, j: usize| (0..2).any(|t| a >> (2 * i + t) & 1 == 1 && b >> (2 * t + j) & 1 == 1);
        (0..4).filter(|bit| related(bit / 2, bit % 2)).fold(0, |set, bit| set | 1 << bit)
    };
    GradeTables::from_rules("relations", 16, 0b1001, |a, b| a | b, compose)
}

/// Rising maps of the chain 0, 1, 2 that keep 0: the larger value at each point, and one map after the other. The
/// product doesn't commute and the unit isn't the greatest.
pub fn rising_maps() -> GradeTables {
    maps("rising-maps", |f| f[1] <= f[2])
}

/// All maps of the chain 0, 1, 2 that keep 0. Only one side of law 8 holds.
pub fn all_maps() -> GradeTables {
    maps("all-maps", |_| true)
}

fn maps(name: &str, wanted: impl Fn(&[usize; 3]) -> bool) -> GradeTables {
    let things: Vec<[usize; 3]> = (0..9).map(|i| [0, i / 3, i % 3]).filter(|f| wanted(f)).collect();
    GradeTables::from_things(
        name,
        &things,
        &[0, 1, 2],
        |f, g| [0, 1, 2].map(|i| f[i].max(g[i])),
        |f, g| [0, 1, 2].map(|i| f[g[i]]),
    )
}

/// The diamond: 0, two grades that don't compare, and the greatest.
pub fn diamond() -> GradeTables {
    GradeTables { name: "diamond".into(), ..power_set(2) }
}

/// A distributive lattice: the down-sets of a random order on up to five points, with union and intersection.
pub fn down_sets(rng: &mut Rng) -> GradeTables {
    loop {
        let points = rng.range(2, 5);
        // Bit q of below[p] set: q must be in every set that holds p. Only smaller q, so this is an order once closed.
        let below: Vec<usize> = (0..points).map(|p| rng.below(1 << p)).collect();
        let closed = |set: &usize| (0..points).all(|p| set >> p & 1 == 0 || below[p] & !set == 0);
        let sets: Vec<usize> = (0..1 << points).filter(closed).collect();
        if sets.len() <= 16 {
            let whole = (1 << points) - 1;
            let name = format!("downsets{}", sets.len());
            return GradeTables::from_things(name, &sets, &whole, |a, b| a | b, |a, b| a & b);
        }
    }
}

/// Three grades that don't compare between the least and the greatest, with the meet as product: not distributive.
pub fn three_between() -> GradeTables {
    let join = |a: usize, b: usize| match (a, b) {
        (0, x) | (x, 0) => x,
        _ if a == b => a,
        _ => 4,
    };
    let meet = |a: usize, b: usize| match (a, b) {
        (4, x) | (x, 4) => x,
        _ if a == b => a,
        _ => 0,
    };
    GradeTables::from_rules("three-between", 5, 4, join, meet)
}

/// A sound structure of any family, sometimes renumbered.
pub fn sound(rng: &mut Rng) -> GradeTables {
    let tables = match rng.below(10) {
        0 => chain(rng.range(2, 16)),
        1 => lukasiewicz(rng.range(2, 16)),
        2 => {
            let k = rng.range(3, 16);
            middle_unit(k, rng.range(1, k - 1))
        }
        3 => power_set(rng.range(1, 4) as u32),
        4 | 5 => either_way(rng, relations()),
        6 => either_way(rng, rising_maps()),
        7 => diamond(),
        8 => down_sets(rng),
        _ => chain(2),
    };
    if rng.chance(1, 3) {
        tables.shuffled(rng)
    } else {
        tables
    }
}

fn either_way(rng: &mut Rng, tables: GradeTables) -> GradeTables {
    if rng.chance(1, 2) {
        tables.turned()
    } else {
        tables
    }
}
