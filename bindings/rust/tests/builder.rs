//! The builder: makings, kinds, runs of appends, and what finished arrays keep.

mod common;

use cangxole::{Kind, Native, Reading, UnionBuilder, Value};
use common::{NAMES, Numbers, builder, readings};

#[test]
fn a_making_is_refused_outside_its_limits() {
    for (capacity, columns) in [(0, 1), (65_537, 1), (1, 0), (1, 129), (usize::MAX, usize::MAX)] {
        assert_eq!(UnionBuilder::with_capacity_dense(capacity, columns).unwrap_err().number(), 15);
        assert_eq!(UnionBuilder::with_capacity_sparse(capacity, columns).unwrap_err().number(), 15);
    }
    assert_eq!(UnionBuilder::new_dense(0).unwrap_err().number(), 15);
    assert_eq!(UnionBuilder::new_sparse(129).unwrap_err().number(), 15);
    for made in [UnionBuilder::new_dense(128), UnionBuilder::new_sparse(1)] {
        let builder = made.unwrap();
        assert_eq!((builder.capacity(), builder.len(), builder.is_empty()), (1024, 0, true));
    }
    let mut largest = UnionBuilder::with_capacity_dense(65_536, 128).unwrap();
    largest.append("a", 1u8).unwrap();
    assert_eq!(largest.finish().value(0).unwrap().value, Value::UInt8(1));
}

#[test]
fn a_new_builder_has_the_layout_asked_for() {
    assert!(UnionBuilder::new_dense(1).unwrap().finish_cloned().is_dense());
    assert!(!UnionBuilder::new_sparse(1).unwrap().finish_cloned().is_dense());
    assert!(UnionBuilder::with_capacity_dense(1, 1).unwrap().build().is_dense());
    assert!(!UnionBuilder::with_capacity_sparse(1, 1).unwrap().build().is_dense());
}

#[test]
fn names_and_columns_have_limits() {
    let mut builder = UnionBuilder::with_capacity_dense(8, 2).unwrap();
    let longest = "é".repeat(16);
    builder.append(&longest, 1i8).unwrap();
    builder.append("", 2i8).unwrap();
    for long in ["n".repeat(33), "n".repeat(255), "n".repeat(256), "n".repeat(100_000), "é".repeat(17)] {
        assert_eq!(builder.append(&long, 3i8).unwrap_err().number(), 17);
        assert_eq!(builder.append_null::<i8>(&long).unwrap_err().number(), 17);
        assert_eq!(builder.append_all([Reading::new(&long, 3i8)]).unwrap_err().refused()[0].1.number(), 17);
    }
    assert_eq!(builder.append("third", 3i8).unwrap_err().number(), 20);
    let array = builder.finish();
    assert_eq!((array.value(0).unwrap().name.as_str(), array.value(1).unwrap().name.as_str()), (longest.as_str(), ""));
    assert_eq!(array.type_names(), ["", longest.as_str()]);
}

/// Appends values of one kind, and reads them back with their bits.
fn keeps<T: Native>(values: &[T]) {
    for dense in [false, true] {
        let mut builder = builder(dense, values.len() + 1, 2);
        builder.append("before", 1u8).unwrap();
        for value in values {
            builder.append("here", *value).unwrap();
        }
        let array = builder.build();
        for (i, value) in values.iter().enumerate() {
            let told = array.value(i + 1).unwrap().value;
            assert_eq!((told.kind(), told.word()), (T::KIND, value.to_word()));
            assert_eq!(told.get::<T>().unwrap().to_word(), value.to_word());
            assert_eq!(array.values(i + 1..).unwrap().words()[0], value.to_word());
        }
    }
}

#[test]
fn every_kind_keeps_its_bits() {
    keeps(&[0, 1, -1, i8::MIN, i8::MAX]);
    keeps(&[0, 1, -1, i16::MIN, i16::MAX]);
    keeps(&[0, 1, -1, i32::MIN, i32::MAX]);
    keeps(&[0, 1, -1, i64::MIN, i64::MAX]);
    keeps(&[0, u8::MAX]);
    keeps(&[0, u16::MAX]);
    keeps(&[0, u32::MAX]);
    keeps(&[0, u64::MAX]);
    keeps(&[0.0, -0.0, f32::MIN, f32::INFINITY, f32::NAN, f32::from_bits(0xffa1_2345), f32::from_bits(0x7fc0_0001)]);
    keeps(&[0.0, -0.0, f64::MAX, f64::NEG_INFINITY, f64::NAN, f64::from_bits(0x7ff0_0000_0000_0001)]);
    keeps(&[f64::from_bits(0xfff8_dead_beef_0001), 5e-324]);
}

#[test]
fn words_have_zeros_above_the_value() {
    assert_eq!((Value::from(-1i8).word(), Value::from(-1i32).word()), (0xff, 0xffff_ffff));
    assert_eq!((Value::from(-2.0f32).word(), Value::from(1.0f64).word()), (0xc000_0000, 0x3ff0_0000_0000_0000));
    assert_eq!(Value::from_word(Kind::Int16, 0x1_fffe), Value::Int16(-2));
    assert_eq!((Value::Int16(-2).get::<i16>(), Value::Int16(-2).get::<u16>()), (Some(-2), None));
    assert_eq!((Value::Null(Kind::Int16).get::<i16>(), Value::Null(Kind::Int16).word()), (None, 0));
}

#[test]
fn a_run_appends_what_single_appends_do() {
    let missing = [1, 0, 4, 2, 1, 0, 3, 1];
    for dense in [false, true] {
        // More readings than one call of the library takes, some of them refused.
        let mut all = readings(&mut Numbers(3), 9000, &missing);
        let long = "n".repeat(40);
        all[5] = Reading { name: NAMES[0], value: Value::Null(Kind::Float64) };
        all[8191] = Reading { name: &long, ..all[8191] };
        all[8192] = Reading { name: "one too many", ..all[8192] };
        let (mut single, mut run) = (builder(dense, 8996, 8), builder(dense, 8996, 8));
        let mut refused = Vec::new();
        for (k, reading) in all.iter().enumerate() {
            if let Err(refusal) = common::append(&mut single, reading) {
                refused.push((k, refusal));
            }
        }
        let error = run.append_all(all.iter().copied()).unwrap_err();
        assert_eq!((error.refused(), error.readings()), (refused.as_slice(), 9000));
        let numbers: Vec<(usize, u8)> = refused.iter().map(|(k, refusal)| (*k, refusal.number())).collect();
        assert_eq!(numbers, [(5, 18), (8191, 17), (8192, 20), (8999, 19)]);
        let mut kept = all;
        for (k, _) in refused.iter().rev() {
            kept.remove(*k);
        }
        common::tells(&run.finish_cloned(), &kept, &common::ids(&kept));
        common::tells(&single.finish_cloned(), &kept, &common::ids(&kept));
        assert_eq!(run.append_all([]), Ok(()));
        assert_eq!(run.len(), 8996);
    }
}

#[test]
fn arrays_stay_as_they_are() {
    let missing = [1, 2, 0, 1];
    for dense in [false, true] {
        let all = readings(&mut Numbers(8), 300, &missing);
        let ids = common::ids(&all);
        let mut builder = builder(dense, 300, 4);
        let nothing = builder.finish_cloned();
        builder.append_all(all[..77].iter().copied()).unwrap();
        let snapshot = builder.finish_cloned();
        builder.append_all(all[77..].iter().copied()).unwrap();
        let second = builder.finish_cloned();
        let finished = builder.finish();
        assert_eq!((builder.len(), builder.capacity()), (0, 300));
        builder.append_all((0..300).map(|i| Reading::new("other", i as u64))).unwrap();
        let other = builder.build();
        assert!(!other.is_dense(), "a finish leaves a sparse builder");
        assert_eq!(other.value(299).unwrap().value, Value::UInt64(299));
        common::tells(&nothing, &[], &[]);
        common::tells(&snapshot, &all[..77], &ids[..77]);
        common::tells(&second, &all, &ids);
        common::tells(&finished, &all, &ids);
        assert_eq!((snapshot.is_dense(), finished.is_dense()), (dense, dense));
    }
}

#[test]
fn a_copy_of_a_builder_goes_its_own_way() {
    let mut one = UnionBuilder::new_dense(2).unwrap();
    one.append("a", 1i32).unwrap();
    let mut two = one.clone();
    one.append("b", 2i32).unwrap();
    two.append("c", 3i32).unwrap();
    assert_eq!((one.finish().type_names(), two.finish().type_names()), (vec!["a", "b"], vec!["a", "c"]));
}
