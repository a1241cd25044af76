//! The port's side, by its C functions.

use cangxole::ffi::{self, Buffers, Builder, Built, Readings};

pub fn with_capacity(dense: bool, capacity: usize, limit: usize, lent: &Buffers) -> Builder {
    let built = match dense {
        true => ffi::builder_with_capacity_dense(capacity, limit, lent),
        false => ffi::builder_with_capacity_sparse(capacity, limit, lent),
    };
    assert_eq!(built.refusal, 0, "an accepted making");
    built.builder
}

/// Appends the readings, a call for each.
pub fn append_each(builder: Builder, run: &Readings, lent: &mut Buffers) -> Builder {
    let mut built = Built { builder, refusal: 0 };
    for k in 0..run.starts.len() {
        let name = run.name(k);
        built = match run.present[k] {
            1 => ffi::builder_append(&built.builder, name, run.kinds[k], run.bits[k], &mut *lent),
            _ => ffi::builder_append_null(&built.builder, name, run.kinds[k], &mut *lent),
        };
        assert_eq!(built.refusal, 0, "an accepted reading");
    }
    built.builder
}
