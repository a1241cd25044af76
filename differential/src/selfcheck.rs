//! The original tested against its own documented examples and against document 01's edges.

use crate::compare::{GATHER_COSTS, number};
use crate::oracle::{Builder, Union};
use crate::plain::{Case, Kind, add_column, without_columns};
use crate::tally::Tally;

/// The examples in the given files' own documentation.
pub fn documented(tally: &mut Tally) {
    let float = |value: f64| Some(value.to_bits());
    let mut dense = without_columns(&[0, 1, 0], Some(&[0, 0, 1]));
    add_column(&mut dense, 0, Kind::Int32, b"A", &[Some(1), Some(34)], false);
    add_column(&mut dense, 1, Kind::Float64, b"B", &[float(3.2)], false);
    let mut sparse = without_columns(&[0, 1, 0], None);
    add_column(&mut sparse, 0, Kind::Int32, b"A", &[Some(1), None, Some(34)], true);
    add_column(&mut sparse, 1, Kind::Float64, b"B", &[None, float(3.2), None], true);
    for case in [&dense, &sparse] {
        let union = Union::try_new(&case.batch, &case.lent).answer().unwrap();
        let values: Vec<u64> = (0..3).map(|i| union.value(i).answer().unwrap().bits).collect();
        tally.alone("documented union", values, vec![1, 3.2_f64.to_bits(), 34]);
    }
    for dense in [true, false] {
        let mut builder = if dense { Builder::new_dense() } else { Builder::new_sparse() };
        for (name, kind, word) in
            [("a", Kind::Int32, 1), ("b", Kind::Float64, 3.0_f64.to_bits()), ("a", Kind::Int32, 4)]
        {
            tally.alone("documented append", number(&builder.append(name, kind, word)), 0);
        }
        let union = builder.finish().answer().unwrap();
        let ids: Vec<i8> = (0..3).map(|i| union.type_id(i).answer().unwrap()).collect();
        let offsets: Vec<usize> = (0..3).map(|i| union.value_offset(i).answer().unwrap()).collect();
        tally.alone("documented type ids", ids, vec![0, 1, 0]);
        tally.alone("documented offsets", offsets, if dense { vec![0, 0, 1] } else { vec![0, 1, 2] });
    }
}

fn nulls_of(count: usize, of: &[usize]) -> Vec<Option<u64>> {
    (0..count).map(|p| (!of.contains(&p)).then_some(1)).collect()
}

fn sparse(type_ids: &[i8], children: &[&[usize]]) -> Case {
    let mut case = without_columns(type_ids, None);
    for (id, nulls) in children.iter().enumerate() {
        let slots = nulls_of(type_ids.len(), nulls);
        add_column(&mut case, id as i8, Kind::Int8, &[b'a' + id as u8], &slots, !nulls.is_empty());
    }
    case
}

/// Document 01's edges, by their numbers and not by the model.
pub fn edges(tally: &mut Tally) {
    let try_new = |case: &Case| Union::try_new(&case.batch, &case.lent);
    let mask = |case: &Case, cost: u8| try_new(case).answer().unwrap().logical_nulls(cost).answer().unwrap();
    let empty = without_columns(&[], None);
    tally.alone("edge: no fields", (number(&try_new(&empty)), mask(&empty, 10).present), (0, false));
    for id in [3, -1] {
        let mut gap = without_columns(&[id], None);
        add_column(&mut gap, 0, Kind::Int8, b"a", &[Some(1)], false);
        add_column(&mut gap, 5, Kind::Int8, b"b", &[Some(1)], false);
        tally.alone("edge: type id of no field", number(&try_new(&gap)), 7);
    }
    for (offset, expected) in [(1, 0), (2, 8), (-1, 8)] {
        let mut two = without_columns(&[0], Some(&[offset]));
        add_column(&mut two, 0, Kind::Int8, b"a", &[Some(1), Some(2)], false);
        tally.alone("edge: offset", number(&try_new(&two)), expected);
    }
    let mut both = without_columns(&[0, 1], Some(&[2, 0]));
    add_column(&mut both, 0, Kind::Int8, b"a", &[Some(1)], false);
    tally.alone("edge: offset bad in slot 0, id bad in slot 1", number(&try_new(&both)), 7);
    let three = try_new(&sparse(&[0, 0, 0], &[&[]])).answer().unwrap();
    tally.alone("edge: slice (3, 0)", three.slice(3, 0).is_answer(), true);
    tally.alone("edge: slice (3, 1)", three.slice(3, 1).sort(), "panicked");
    let mut one_each = without_columns(&[], Some(&[]));
    add_column(&mut one_each, 0, Kind::Int8, b"a", &[None], true);
    add_column(&mut one_each, 1, Kind::Int8, b"b", &[None], true);
    let nulls = mask(&one_each, 10);
    tally.alone("edge: dense, no slots, all null", (nulls.present, nulls.length, nulls.route), (true, 0, 2));
    tally.alone("edge: sparse, no slots", mask(&sparse(&[], &[&[], &[]]), 10).present, false);
    #[allow(clippy::type_complexity)]
    let routes: [(&[i8], &[&[usize]], u8, u8); 4] = [
        (&[0, 1], &[&[0], &[1]], 2, 4),
        (&[0, 1], &[&[0], &[1], &[0]], 2, 3),
        (&[0, 1], &[&[0, 1], &[]], 10, 5),
        (&[0, 1], &[&[0, 1], &[0, 1], &[0, 1], &[]], 10, 6),
    ];
    for (ids, children, cost, route) in routes {
        tally.alone("edge: route", mask(&sparse(ids, children), cost).route, route);
    }
    builder_edges(tally);
}

fn builder_edges(tally: &mut Tally) {
    for dense in [true, false] {
        let mut builder = Builder::with_capacity(dense, 8);
        builder.append("A", Kind::Int32, 7);
        builder.append_null("B", Kind::Int8);
        builder.append("A", Kind::Int32, 9);
        let union = builder.finish_cloned().answer().unwrap();
        let child = |id| union.child(id).answer().map(|child| (child.words, child.mask)).unwrap();
        let (a, b) = match dense {
            true => ((vec![7, 9], None), (vec![0], Some(vec![false]))),
            false => ((vec![7, 0, 9], Some(vec![true, false, true])), (vec![0; 3], Some(vec![false; 3]))),
        };
        tally.alone("edge: A 7, B null, A 9: children", (child(0), child(1)), (a, b));
        let offsets = union.0.offsets().map(|offsets| offsets.to_vec());
        tally.alone("edge: A 7, B null, A 9: offsets", offsets, dense.then(|| vec![0, 0, 1]));
        tally.alone("edge: A 7, B null, A 9: ids", union.0.type_ids().to_vec(), vec![0, 1, 0]);
        for cost in GATHER_COSTS {
            let nulls = union.logical_nulls(cost).answer().unwrap();
            tally.alone("edge: A 7, B null, A 9: mask", (nulls.bits, nulls.null_count), (vec![5], 1));
        }
    }
    let mut builder = Builder::new_dense();
    builder.append("b", Kind::Int8, 1);
    builder.append("a", Kind::Int8, 2);
    let union = builder.finish().answer().unwrap();
    let listed: Vec<(i8, String)> = union.0.fields().iter().map(|(id, field)| (id, field.name().clone())).collect();
    tally.alone("edge: b, then a", listed, vec![(1, "a".to_owned()), (0, "b".to_owned())]);
}
