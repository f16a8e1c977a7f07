//! The least acceptable marking.
//!
//! Every rule says "if this type is at least so high, that type is at least
//! so high", so the acceptable markings have a least one. In full:
//!
//! - a DYNAMIC type makes its target DYNAMIC;
//! - a conversion makes source and target DYNAMIC together, and a target that
//!   is SEQ makes its source SEQ;
//! - below a conversion the types are twins: of equal kind level by level. Where
//!   one side ends in int and the other goes on, the level above is DYNAMIC.
//!
//! Twins are united first. DYNAMIC is then carried through the classes, and
//! SEQ back along the conversions.

use crate::kind::{Kind, Marking};
use crate::routine::Routine;
use crate::rows::{Expression, Type};

/// The least acceptable marking.
pub fn infer(routine: &Routine) -> Marking {
    infer_above(routine, &Marking::uniform(routine, Kind::Safe))
}

/// The least acceptable marking that is nowhere below the given one.
pub fn infer_above(routine: &Routine, floor: &Marking) -> Marking {
    let mut classes = Classes::new(routine);
    let mut dynamic = Vec::new();
    let mut seq = Vec::new();
    let mut conversions = Vec::new();

    for t in routine.types() {
        match floor.kind(t) {
            Some(Kind::Dynamic) => dynamic.push(t),
            Some(Kind::Seq) => seq.push(t),
            _ => {}
        }
    }
    for (_, expression) in routine.expressions() {
        if let Expression::Sum { pointer, .. } = expression {
            seq.push(routine.type_of(pointer));
        }
    }
    for (from, to) in routine.conversions() {
        match (routine.target(from), routine.target(to)) {
            (_, None) => {}
            (None, Some(_)) => seq.push(to),
            (Some(x), Some(y)) => {
                conversions.push((from, to));
                if !classes.unite(x, y) {
                    // And so `to`, by this conversion.
                    dynamic.push(from);
                }
            }
        }
    }
    classes.solve(&conversions, dynamic, seq)
}

/// Types that must be of equal kind, as a union-find forest over type
/// numbers. int is a class of its own.
struct Classes {
    parent: Vec<usize>,
    /// For each root, a target of one of its types; a reference if any is.
    target: Vec<usize>,
    /// Roots of classes in which some targets are int and some are not.
    torn: Vec<usize>,
}

const INT: usize = 0;

impl Classes {
    fn new(routine: &Routine) -> Classes {
        let targets = routine.types().filter_map(|t| routine.target(t));
        Classes {
            parent: (0..=routine.type_count()).collect(),
            target: std::iter::once(INT)
                .chain(targets.map(|t| usize::from(t.0)))
                .collect(),
            torn: Vec::new(),
        }
    }

    fn root(&mut self, mut t: usize) -> usize {
        while self.parent[t] != t {
            self.parent[t] = self.parent[self.parent[t]];
            t = self.parent[t];
        }
        t
    }

    /// Makes two types twins, and their targets down to int. False if one of
    /// the two is int and the other is not: the level above must be DYNAMIC.
    fn unite(&mut self, a: Type, b: Type) -> bool {
        let (mut a, mut b) = (usize::from(a.0), usize::from(b.0));
        if (a == INT) != (b == INT) {
            return false;
        }
        loop {
            (a, b) = (self.root(a), self.root(b));
            if a == b {
                return true;
            }
            let (x, y) = (self.target[a], self.target[b]);
            self.parent[b] = a;
            if (x == INT) != (y == INT) {
                // A DYNAMIC class: its targets are DYNAMIC, twins or not.
                self.target[a] = x.max(y);
                self.torn.push(a);
                return true;
            }
            (a, b) = (x, y);
        }
    }

    /// Carries the kinds to where the rules demand them.
    fn solve(
        mut self,
        conversions: &[(Type, Type)],
        dynamic: Vec<Type>,
        seq: Vec<Type>,
    ) -> Marking {
        let types = self.parent.len();
        let roots: Vec<usize> = (0..types).map(|t| self.root(t)).collect();
        let root = |t: Type| roots[usize::from(t.0)];

        // Sources that convert to a class, and the classes that it converts to.
        let mut sources = vec![Vec::new(); types];
        let mut results = vec![Vec::new(); types];
        for &(from, to) in conversions {
            sources[root(to)].push(root(from));
            results[root(from)].push(root(to));
        }

        let mut kinds = vec![Kind::Safe; types];
        let mut work: Vec<usize> = self.torn.iter().map(|&t| roots[t]).collect();
        work.extend(dynamic.into_iter().map(root));
        while let Some(class) = work.pop() {
            if class != INT && kinds[class] != Kind::Dynamic {
                kinds[class] = Kind::Dynamic;
                work.push(roots[self.target[class]]);
                work.extend(&sources[class]);
                work.extend(&results[class]);
            }
        }
        work.extend(seq.into_iter().map(root));
        while let Some(class) = work.pop() {
            if kinds[class] == Kind::Safe {
                kinds[class] = Kind::Seq;
                work.extend(&sources[class]);
            }
        }
        Marking(roots[1..].iter().map(|&class| kinds[class]).collect())
    }
}
