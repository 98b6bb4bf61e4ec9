//! Vectors and records by the names of their columns, for the tests.

use second::plant::Plant;
use second::tables::*;

/// An ASM1 vector by its named columns.
pub fn asm1(named: &[(&str, u64)]) -> Asm1 {
    let mut v = [0; 13];
    for (name, number) in named {
        v[asm1_column(name.as_bytes()).unwrap()] = *number;
    }
    v
}

/// A digester vector by its named columns.
pub fn digester(named: &[(&str, u64)]) -> Digester {
    let mut v = [0; 26];
    for (name, number) in named {
        v[digester_column(name.as_bytes()).unwrap()] = *number;
    }
    v
}

/// A fresh record whose sludge is this.
pub fn with_sludge(named: &[(&str, u64)]) -> Plant {
    Plant { sludge: asm1(named), ..Plant::FRESH }
}

/// A fresh record whose digester is this.
pub fn with_digester(named: &[(&str, u64)]) -> Plant {
    Plant { digester: digester(named), ..Plant::FRESH }
}
