//! Geometry and replacement rules (section 4).

/// Sets and ways, each 1, 2, 4 or 8.
#[derive(Clone, Copy, Debug, PartialEq)]
pub struct Geometry {
    pub sets: usize,
    pub ways: usize,
}

#[derive(Clone, Copy, Debug, PartialEq)]
pub enum RuleKind {
    Lru,
    Fifo,
}

/// For each set the order in which its ways are to be replaced.
pub struct Rule {
    kind: RuleKind,
    ways: usize,
    order: Vec<usize>,
}

impl Rule {
    pub fn new(kind: RuleKind, geometry: Geometry) -> Rule {
        let order = (0..geometry.sets).flat_map(|_| 0..geometry.ways).collect();
        Rule { kind, ways: geometry.ways, order }
    }

    /// The first way in the order of the set that is offered.
    pub fn pick(&self, set: usize, is_offered: impl Fn(usize) -> bool) -> Option<usize> {
        let order = &self.order[set * self.ways..][..self.ways];
        order.iter().copied().find(|&way| is_offered(way))
    }

    /// Tells of a hit.
    pub fn used(&mut self, set: usize, way: usize) {
        if self.kind == RuleKind::Lru {
            self.move_to_end(set, way);
        }
    }

    /// Tells of a fill.
    pub fn filled(&mut self, set: usize, way: usize) {
        self.move_to_end(set, way);
    }

    fn move_to_end(&mut self, set: usize, way: usize) {
        let order = &mut self.order[set * self.ways..][..self.ways];
        if let Some(position) = order.iter().position(|&other| other == way) {
            order[position..].rotate_left(1);
        }
    }
}
