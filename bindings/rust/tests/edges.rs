//! The edges that document 01 lists.

mod common;

use cangxole::{Child, Kind, Processor, Reading, UnionArray, UnionBuilder, Value};
use common::builder;

/// A child of Int8 values, some missing.
fn some(values: &[Option<i8>]) -> Child {
    Child::from(values.to_vec())
}

/// The number by which an array of these parts is refused, 0 if it is not.
fn number(fields: &[(i8, &str)], type_ids: &[i8], offsets: Option<&[i32]>, children: &[Child]) -> u8 {
    let array = UnionArray::try_new(fields, type_ids.to_vec(), offsets.map(<[i32]>::to_vec), children);
    array.map_or_else(|refusal| refusal.number(), |_| 0)
}

#[test]
fn three_appends_in_both_layouts() {
    let (seven, nine, null) = (Value::Int8(7), Value::Int8(9), Value::Null(Kind::Int8));
    for dense in [false, true] {
        let mut builder = builder(dense, 1024, 4);
        builder.append("A", 7i8).unwrap();
        builder.append_null::<i8>("B").unwrap();
        builder.append("A", 9i8).unwrap();
        assert_eq!(builder.len(), 3);
        let array = builder.finish();
        assert_eq!((array.len(), array.is_dense(), array.is_nullable()), (3, dense, true));
        assert_eq!((array.type_ids(), array.type_names()), (&[0, 1, 0][..], vec!["A", "B"]));
        let offsets: Vec<usize> = (0..3).map(|i| array.value_offset(i).unwrap()).collect();
        assert_eq!(offsets, if dense { [0, 0, 1] } else { [0, 1, 2] });
        let child = |id| array.child(id).unwrap().iter().collect::<Vec<_>>();
        assert_eq!(child(0), if dense { vec![seven, nine] } else { vec![seven, null, nine] });
        assert_eq!(child(1), if dense { vec![null] } else { vec![null, null, null] });
        for setting in common::PROCESSORS {
            let nulls = array.logical_nulls(setting).unwrap();
            assert_eq!((nulls.mask().unwrap().words(), nulls.null_count()), (&[5][..], 1));
        }
    }
}

#[test]
fn around_64_slots_and_a_full_builder() {
    for (dense, length) in [63, 64, 65].into_iter().flat_map(|length| [(false, length), (true, length)]) {
        let mut builder = builder(dense, length, 2);
        let mut readings = Vec::new();
        for i in 0..length {
            let reading = match i % 3 {
                0 => Reading::null::<u16>("b"),
                1 => Reading::new("b", i as u16),
                _ => Reading::new("a", -(i as f32)),
            };
            common::append(&mut builder, &reading).unwrap();
            readings.push(reading);
        }
        assert_eq!(builder.append("a", 1f32).unwrap_err().number(), 19);
        assert_eq!(builder.append_null::<u16>("b").unwrap_err().number(), 19);
        assert_eq!(builder.append("c", 1f32).unwrap_err().number(), 19);
        assert_eq!(builder.len(), length);
        common::tells(&builder.finish(), &readings, &common::ids(&readings));
    }
}

#[test]
fn columns_are_listed_by_name() {
    let mut builder = UnionBuilder::new_sparse(4).unwrap();
    builder.append("b", 1i8).unwrap();
    builder.append("a", 2i64).unwrap();
    let array = builder.finish();
    assert_eq!(array.type_names(), ["a", "b"]);
    let (a, b) = (array.child(1).unwrap(), array.child(0).unwrap());
    assert_eq!((a.type_id(), a.name(), a.kind()), (1, "a", Kind::Int64));
    assert_eq!((b.type_id(), b.name(), b.kind()), (0, "b", Kind::Int8));
    assert_eq!(array.value(0).unwrap().name, "b");
}

#[test]
fn a_kind_mismatch_keeps_the_column() {
    for dense in [false, true] {
        let mut builder = builder(dense, 16, 4);
        builder.append("A", 1i8).unwrap();
        builder.append("B", 2i8).unwrap();
        assert_eq!(builder.append("A", 3i16).unwrap_err().number(), 18);
        assert_eq!(builder.append_null::<u8>("A").unwrap_err().number(), 18);
        builder.append("C", 4i8).unwrap();
        builder.append("A", 5i8).unwrap();
        let array = builder.finish();
        assert_eq!(array.type_ids(), [0, 1, 2, 0]);
        let told: Vec<_> = array.values(..).unwrap().iter().map(|slot| (slot.name.to_string(), slot.value)).collect();
        let expected = [("A", 1), ("B", 2), ("C", 4), ("A", 5)].map(|(name, v)| (name.to_string(), Value::Int8(v)));
        assert_eq!(told, expected);
    }
}

#[test]
fn a_type_id_names_a_field() {
    let children = [some(&[Some(1)]), some(&[Some(2)])];
    assert_eq!(number(&[(0, "a"), (5, "b")], &[5], None, &children), 0);
    assert_eq!(number(&[(0, "a"), (5, "b")], &[3], None, &children), 7);
    assert_eq!(number(&[(0, "a"), (5, "b")], &[-1], None, &children), 7);
}

#[test]
fn an_offset_names_a_slot() {
    let child = [some(&[Some(1), Some(2)])];
    assert_eq!(number(&[(0, "a")], &[0], Some(&[1]), &child), 0);
    assert_eq!(number(&[(0, "a")], &[0], Some(&[2]), &child), 8);
    assert_eq!(number(&[(0, "a")], &[0], Some(&[-1]), &child), 8);
    assert_eq!(number(&[(0, "a")], &[0, 1], Some(&[2, 0]), &child), 7);
}

#[test]
fn a_slice_at_the_end() {
    let array = UnionArray::try_new(&[(0, "a")], vec![0; 3], None, &[Child::from(vec![1i8, 2, 3])]).unwrap();
    assert_eq!(array.slice(3, 0).unwrap().len(), 0);
    assert_eq!(array.slice(3, 1).unwrap_err().number(), 9);
    assert_eq!(array.slice(usize::MAX, usize::MAX).unwrap_err().number(), 9);
}

#[test]
fn masks_of_no_slots() {
    let nothing = UnionArray::try_new(&[], vec![], None, &[]).unwrap();
    let nulls = nothing.logical_nulls(Processor::X86).unwrap();
    assert_eq!((nulls.route(), nulls.mask()), (0, None));
    let fields = [(0, "a"), (1, "b")];
    let dense = UnionArray::try_new(&fields, vec![], Some(vec![]), &[some(&[None]), some(&[None])]).unwrap();
    let nulls = dense.logical_nulls(Processor::X86).unwrap();
    assert_eq!((nulls.route(), nulls.mask().unwrap().len(), nulls.null_count()), (2, 0, 0));
    let sparse = UnionArray::try_new(&fields, vec![], None, &[some(&[]), some(&[])]).unwrap();
    assert_eq!(sparse.logical_nulls(Processor::X86).unwrap().mask(), None);
}

#[test]
fn routes() {
    let (mixed, none, all) = (some(&[None, Some(1)]), some(&[Some(1), Some(2)]), some(&[None, None]));
    let route = |children: &[&Child], processor| {
        let fields: Vec<(i8, &str)> = (0..).zip(["a", "b", "c", "d"]).take(children.len()).collect();
        let children: Vec<Child> = children.iter().copied().cloned().collect();
        let array = UnionArray::try_new(&fields, vec![0, 0], None, &children).unwrap();
        array.logical_nulls(processor).unwrap().route()
    };
    assert_eq!(route(&[&mixed, &mixed], Processor::X86), 4);
    assert_eq!(route(&[&mixed, &mixed, &mixed], Processor::X86), 3);
    assert_eq!(route(&[&all, &none], Processor::AVX2), 5);
    assert_eq!(route(&[&all, &all, &all, &none], Processor::AVX2), 6);
    assert_eq!(route(&[&all, &all], Processor::AVX2), 2);
    assert_eq!(route(&[&none, &none], Processor::OTHER), 0);
    assert_eq!(route(&[&none], Processor::OTHER), 1);
    assert_eq!(route(&[&mixed, &mixed], Processor::OTHER), 3);
}
