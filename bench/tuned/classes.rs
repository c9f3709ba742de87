//! The solved classes.
use crate::*;

#[derive(Clone, Copy, PartialEq, Eq)]
pub enum Kind {
    WeightedSum,
    PlainSum,
    Hmax,
    PrecHmax,
    Lmax,
    PrecLmax,
    ReleaseLmax,
    FlowTwo,
    OpenTwo,
    ParallelPrmp,
    ParallelSum,
}
pub use Kind::*;

/// The kind of problem, and whether jobs may be broken.
#[derive(Clone, Copy, PartialEq, Eq)]
pub struct Class {
    pub kind: Kind,
    pub prmp: bool,
}

impl Class {
    pub fn of(problem: &Problem) -> Option<Class> {
        let prmp = problem.conditions & PRMP != 0;
        let shop_count = matches!(problem.count, None | Some(2));
        let kind = match (problem.env, problem.conditions & !PRMP, problem.goal) {
            (b'1', 0, "sumwC") => WeightedSum,
            (b'1', 0, "sumC") => PlainSum,
            (b'1', 0, "hmax") => Hmax,
            (b'1', PREC, "hmax") => PrecHmax,
            (b'1', 0, "Lmax") => Lmax,
            (b'1', PREC, "Lmax") => PrecLmax,
            (b'1', RJ, "Lmax") if prmp => ReleaseLmax,
            (b'F', 0, "Cmax") if shop_count => FlowTwo,
            (b'O', 0, "Cmax") if shop_count => OpenTwo,
            (b'P', 0, "Cmax") if prmp => ParallelPrmp,
            (b'P', 0, "sumC") if !prmp => ParallelSum,
            _ => return None,
        };
        Some(Class { kind, prmp })
    }

    pub fn weight(self) -> bool {
        self.kind == WeightedSum
    }
    pub fn due(self) -> bool {
        matches!(self.kind, Lmax | PrecLmax | ReleaseLmax)
    }
    pub fn release(self) -> bool {
        self.kind == ReleaseLmax
    }
    pub fn cost(self) -> bool {
        matches!(self.kind, Hmax | PrecHmax)
    }
    pub fn arcs(self) -> bool {
        matches!(self.kind, PrecHmax | PrecLmax)
    }
    pub fn shop(self) -> bool {
        matches!(self.kind, FlowTwo | OpenTwo)
    }
}
