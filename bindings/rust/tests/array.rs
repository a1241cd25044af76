//! Arrays: of a caller's parts, slices, lookups, and what they refuse.

mod common;

use cangxole::{Child, Kind, Processor, Slot, Strategy, UnionArray, Value};
use common::{Numbers, builder, readings};

/// The number by which an array of these parts is refused, 0 if it is not.
fn number(fields: &[(i8, &str)], type_ids: Vec<i8>, offsets: Option<Vec<i32>>, children: &[Child]) -> u8 {
    UnionArray::try_new(fields, type_ids, offsets, children).map_or_else(|refusal| refusal.number(), |_| 0)
}

#[test]
fn an_array_of_parts() {
    let fields = [(9, "volts"), (2, "on"), (4, "code")];
    let children =
        [Child::from(vec![230.5f32, 229.0]), Child::from(vec![Some(1u8), None, Some(0)]), Child::from(vec![-5i64])];
    let array = UnionArray::try_new(&fields, vec![2, 9, 4, 2, 2], Some(vec![0, 1, 0, 1, 2]), &children).unwrap();
    let told: Vec<(i8, String, Value)> =
        array.values(..).unwrap().iter().map(|slot| (slot.type_id, slot.name.to_string(), slot.value)).collect();
    let expected = [
        (2, "on", Value::UInt8(1)),
        (9, "volts", Value::Float32(229.0)),
        (4, "code", Value::Int64(-5)),
        (2, "on", Value::Null(Kind::UInt8)),
        (2, "on", Value::UInt8(0)),
    ];
    assert_eq!(told, expected.map(|(id, name, value)| (id, name.to_string(), value)));
    assert_eq!(array.type_names(), ["volts", "on", "code"]);
    assert_eq!((array.is_dense(), array.is_nullable()), (true, true));
    let nulls = array.logical_nulls(Processor::X86).unwrap();
    assert_eq!((nulls.route(), nulls.mask().unwrap().words(), nulls.null_count()), (3, &[0b10111][..], 1));
    assert_eq!(nulls.mask().unwrap().iter().collect::<Vec<_>>(), [true, true, true, false, true]);
}

#[test]
fn parts_that_do_not_fit() {
    let one = || Child::from(vec![1i8]);
    assert_eq!(number(&[(0, "a")], vec![0], None, &[one()]), 0);
    assert_eq!(number(&[(0, "a"), (0, "b")], vec![0], None, &[one(), one()]), 1);
    assert_eq!(number(&[(-1, "a")], vec![], None, &[one()]), 1);
    let fields: Vec<(i8, &str)> = (0..=127).chain([0]).map(|id| (id, "")).collect();
    let children: Vec<Child> = (0..129).map(|_| one()).collect();
    assert_eq!(number(&fields[..128], vec![127], None, &children[..128]), 0);
    assert_eq!(number(&fields, vec![0], None, &children), 1);
    assert_eq!(number(&fields[..2], vec![0], None, &[one()]), 2);
    assert_eq!(number(&[(0, "a")], vec![0], None, &[one(), one()]), 2);
    for long in [33, 255, 256, 289] {
        assert_eq!(number(&[(0, &"n".repeat(long))], vec![0], None, &[one()]), 3);
    }
    assert_eq!(number(&[(0, &"n".repeat(32))], vec![0], None, &[one()]), 0);
    let most = Child::from(vec![0u8; 65_536]);
    assert_eq!(number(&[(0, "a")], vec![0; 65_536], None, std::slice::from_ref(&most)), 0);
    assert_eq!(number(&[(0, "a")], vec![0; 65_537], Some(vec![0; 65_537]), &[most]), 4);
    assert_eq!(number(&[(0, "a")], vec![], Some(vec![]), &[Child::from(vec![0u8; 65_537])]), 4);
    assert_eq!(number(&[(0, "a")], vec![0], Some(vec![]), &[one()]), 5);
    assert_eq!(number(&[(0, "a")], vec![0, 0], None, &[one()]), 6);
}

#[test]
fn lookups_past_the_end() {
    for dense in [false, true] {
        let mut builder = builder(dense, 4, 1);
        builder.append("a", 1i8).unwrap();
        let array = builder.finish();
        for i in [1, 3, usize::MAX] {
            assert_eq!(array.value(i).unwrap_err().number(), 10);
            assert_eq!(array.type_id(i).unwrap_err().number(), 10);
            assert_eq!(array.value_offset(i).unwrap_err().number(), 10);
            assert_eq!(array.values(i..=i).unwrap_err().number(), 10);
        }
        assert_eq!(array.values(0..usize::MAX).unwrap_err().number(), 10);
        assert_eq!(array.values(2..).unwrap_err().number(), 10);
        assert_eq!((array.values(1..).unwrap().len(), array.values(0..1).unwrap().len()), (0, 1));
        assert_eq!(array.child(1).unwrap_err().number(), 11);
        assert_eq!(array.child(-1).unwrap_err().number(), 11);
        assert_eq!(array.slice(1, 1).unwrap_err().number(), 9);
        assert_eq!(array.child(0).unwrap().value(1), None);
    }
}

#[test]
fn settings_and_strategies_that_are_refused() {
    let missing = Child::from(vec![Some(1i8), None]);
    let whole = Child::from(vec![1i8, 2]);
    let one = UnionArray::try_new(&[(0, "a")], vec![0, 0], None, std::slice::from_ref(&missing)).unwrap();
    let fields = [(0, "a"), (1, "b")];
    let two = UnionArray::try_new(&fields, vec![0, 1], None, &[missing.clone(), whole.clone()]).unwrap();
    let dense = UnionArray::try_new(&fields, vec![0, 1], Some(vec![0, 0]), &[missing, whole]).unwrap();
    for cost in [1, 4, 9, 11, usize::MAX] {
        assert_eq!(two.logical_nulls(Processor { cost }).unwrap_err().number(), 12);
    }
    let numbers = |array: &UnionArray| {
        Strategy::ALL.map(|strategy| array.run_strategy(strategy).map_or_else(|refusal| refusal.number(), |_| 0))
    };
    assert_eq!(numbers(&one), [14, 14, 14, 14]);
    assert_eq!(numbers(&two), [0, 14, 0, 0]);
    assert_eq!(numbers(&dense), [0, 14, 14, 14]);
}

#[test]
fn a_strategy_tells_its_own_route() {
    let missing = || Child::from(vec![Some(1i8), None, None]);
    let array = UnionArray::try_new(&[(0, "a"), (1, "b")], vec![0, 1, 0], None, &[missing(), missing()]).unwrap();
    for strategy in Strategy::ALL {
        let nulls = array.run_strategy(strategy).unwrap();
        assert_eq!((nulls.route(), nulls.mask().unwrap().words()), (strategy.number(), &[1][..]));
    }
    // Without a null among the slots the mask is absent, and the route is still told.
    let first = array.slice(0, 1).unwrap();
    let dense = UnionArray::try_new(&[(0, "a"), (1, "b")], vec![0], Some(vec![0]), &[missing(), missing()]).unwrap();
    assert_eq!((dense.run_strategy(Strategy::Gather).unwrap().route(), dense.is_nullable()), (3, true));
    assert_eq!(dense.run_strategy(Strategy::Gather).unwrap().mask(), None);
    assert_eq!((first.logical_nulls(Processor::X86).unwrap().route(), first.is_nullable()), (0, false));
}

#[test]
fn a_mask_without_a_null_is_kept() {
    let whole = UnionArray::try_new(&[(0, "a")], vec![0], None, &[Child::from(vec![Some(1i8)])]).unwrap();
    let nulls = whole.logical_nulls(Processor::X86).unwrap();
    assert_eq!((nulls.route(), nulls.mask().unwrap().words(), nulls.null_count()), (1, &[1][..], 0));
    assert!(whole.child(0).unwrap().has_mask() && !whole.is_nullable());
    let bare = UnionArray::try_new(&[(0, "a")], vec![0], None, &[Child::from(vec![1i8])]).unwrap();
    assert_eq!(bare.logical_nulls(Processor::X86).unwrap().mask(), None);
    assert!(!bare.child(0).unwrap().has_mask());
}

#[test]
fn slices_of_slices() {
    let missing = [1, 2, 0, 4, 1];
    for dense in [false, true] {
        let all = readings(&mut Numbers(11), 400, &missing);
        let ids = common::ids(&all);
        let mut builder = builder(dense, 400, 5);
        builder.append_all(all.iter().copied()).unwrap();
        for array in [builder.finish_cloned(), builder.finish()] {
            let mut numbers = Numbers(12);
            let (mut slice, mut first, mut n) = (array, 0, 400);
            while n > 0 {
                let o = numbers.below(n.min(70) + 1);
                n = n - o - numbers.below((n - o).min(9) + 1);
                first += o;
                slice = slice.slice(o, n).unwrap();
                common::tells(&slice, &all[first..first + n], &ids[first..first + n]);
                assert_eq!(slice.slice(n, 1).unwrap_err().number(), 9);
            }
        }
    }
}

#[test]
fn a_part_of_a_run() {
    let all = readings(&mut Numbers(5), 100, &[1, 1, 1]);
    let mut builder = builder(true, 100, 3);
    builder.append_all(all.iter().copied()).unwrap();
    let array = builder.finish();
    let slots = |range: std::ops::Range<usize>| range.map(|i| array.value(i).unwrap()).collect::<Vec<Slot>>();
    let words = |slots: Vec<Slot>| slots.iter().map(|slot| (slot.name, slot.value.word())).collect::<Vec<_>>();
    let run = array.values(30..60).unwrap();
    assert_eq!((run.len(), run.type_ids()), (30, &array.type_ids()[30..60]));
    assert_eq!(words(run.iter().collect()), words(slots(30..60)));
    assert_eq!(words(array.values(..=2).unwrap().iter().collect()), words(slots(0..3)));
    assert_eq!(words(array.values(97..).unwrap().iter().collect()), words(slots(97..100)));
    assert!(array.values(100..).unwrap().is_empty());
}

#[test]
fn arrays_go_to_other_threads() {
    let mut builder = builder(false, 8, 1);
    builder.append("a", 5u32).unwrap();
    let array = builder.finish();
    let copy = array.clone();
    let told = std::thread::spawn(move || copy.value(0).unwrap().value).join().unwrap();
    assert_eq!((told, array.value(0).unwrap().value), (Value::UInt32(5), Value::UInt32(5)));
}
