//! Readings made by rule, and what an array over them must tell.
#![allow(dead_code)]

use cangxole::{Kind, Processor, Reading, Refusal, Strategy, UnionArray, UnionBuilder, Value};

/// The four processor settings.
pub const PROCESSORS: [Processor; 4] = [Processor::AVX2, Processor::SSE4_1, Processor::X86, Processor::OTHER];

/// A builder of either layout.
pub fn builder(dense: bool, capacity: usize, columns: usize) -> UnionBuilder {
    match dense {
        true => UnionBuilder::with_capacity_dense(capacity, columns).unwrap(),
        false => UnionBuilder::with_capacity_sparse(capacity, columns).unwrap(),
    }
}

/// Appends one reading by the call for its type.
pub fn append(builder: &mut UnionBuilder, reading: &Reading<'_>) -> Result<(), Refusal> {
    let name = reading.name;
    match reading.value {
        Value::Int8(value) => builder.append(name, value),
        Value::Int16(value) => builder.append(name, value),
        Value::Int32(value) => builder.append(name, value),
        Value::Int64(value) => builder.append(name, value),
        Value::UInt8(value) => builder.append(name, value),
        Value::UInt16(value) => builder.append(name, value),
        Value::UInt32(value) => builder.append(name, value),
        Value::UInt64(value) => builder.append(name, value),
        Value::Float32(value) => builder.append(name, value),
        Value::Float64(value) => builder.append(name, value),
        Value::Null(Kind::Int8) => builder.append_null::<i8>(name),
        Value::Null(Kind::Int16) => builder.append_null::<i16>(name),
        Value::Null(Kind::Int32) => builder.append_null::<i32>(name),
        Value::Null(Kind::Int64) => builder.append_null::<i64>(name),
        Value::Null(Kind::UInt8) => builder.append_null::<u8>(name),
        Value::Null(Kind::UInt16) => builder.append_null::<u16>(name),
        Value::Null(Kind::UInt32) => builder.append_null::<u32>(name),
        Value::Null(Kind::UInt64) => builder.append_null::<u64>(name),
        Value::Null(Kind::Float32) => builder.append_null::<f32>(name),
        Value::Null(Kind::Float64) => builder.append_null::<f64>(name),
    }
}

/// Numbers without a pattern that a test would follow (a linear congruence).
pub struct Numbers(pub u64);

impl Numbers {
    pub fn next(&mut self) -> u64 {
        self.0 = self.0.wrapping_mul(6_364_136_223_846_793_005).wrapping_add(1_442_695_040_888_963_407);
        self.0 >> 16
    }

    pub fn below(&mut self, n: usize) -> usize {
        (self.next() % n as u64) as usize
    }
}

/// Names whose order is not that of their first use.
pub const NAMES: [&str; 8] = ["m", "zz", "a", "", "é", "zza", "B", "0123456789abcdef0123456789abcdef"];

/// n readings in the columns that `missing` has a number for; column c has kind c, and is missing with a chance of
/// `missing[c]` in 4.
pub fn readings(numbers: &mut Numbers, n: usize, missing: &[usize]) -> Vec<Reading<'static>> {
    let reading = |_| {
        let c = numbers.below(missing.len());
        let kind = Kind::ALL[c];
        let value = match numbers.below(4) < missing[c] {
            true => Value::Null(kind),
            false => Value::from_word(kind, numbers.next()),
        };
        Reading { name: NAMES[c], value }
    };
    (0..n).map(reading).collect()
}

/// The id of each reading: its name's place among the names in the order of their first use.
pub fn ids(readings: &[Reading<'_>]) -> Vec<i8> {
    let mut names = Vec::new();
    let mut id = |name| {
        if !names.contains(&name) {
            names.push(name);
        }
        names.iter().position(|known| *known == name).unwrap() as i8
    };
    readings.iter().map(|reading| id(reading.name)).collect()
}

/// Every slot tells its reading, one by one and in a run, and every mask marks exactly the missing ones.
pub fn tells(array: &UnionArray, readings: &[Reading<'_>], ids: &[i8]) {
    assert_eq!(array.len(), readings.len());
    assert_eq!(array.type_ids(), ids);
    let run = array.values(..).unwrap();
    assert_eq!(run.len(), readings.len());
    for (i, reading) in readings.iter().enumerate() {
        let slot = array.value(i).unwrap();
        assert_eq!((slot.type_id, slot.name.as_str()), (ids[i], reading.name));
        assert_eq!((slot.value.kind(), slot.value.is_null()), (reading.value.kind(), reading.value.is_null()));
        assert_eq!(slot.value.word(), reading.value.word());
        assert_eq!(array.type_id(i), Ok(ids[i]));
        let read = run.get(i).unwrap();
        assert_eq!((read.type_id, read.name), (slot.type_id, slot.name));
        assert_eq!((read.value.kind(), read.value.is_null()), (slot.value.kind(), slot.value.is_null()));
        assert_eq!(read.value.word(), slot.value.word());
        let child = array.child(ids[i]).unwrap();
        assert_eq!((child.name(), child.kind()), (reading.name, reading.value.kind()));
        let value = child.value(array.value_offset(i).unwrap()).unwrap();
        assert_eq!((value.is_null(), value.word()), (reading.value.is_null(), reading.value.word()));
    }
    assert!(run.get(readings.len()).is_none());
    marks(array, readings);
}

/// Every mask that the array has marks exactly the missing readings.
pub fn marks(array: &UnionArray, readings: &[Reading<'_>]) -> usize {
    let missing: Vec<bool> = readings.iter().map(|reading| reading.value.is_null()).collect();
    let mut masks: Vec<_> = PROCESSORS.iter().map(|setting| array.logical_nulls(*setting).unwrap()).collect();
    masks.extend(Strategy::ALL.iter().filter_map(|strategy| array.run_strategy(*strategy).ok()));
    for nulls in &masks {
        assert_eq!(nulls.null_count(), missing.iter().filter(|null| **null).count());
        let marked: Vec<bool> = (0..array.len()).map(|i| nulls.is_null(i)).collect();
        assert_eq!(marked, missing, "route {}", nulls.route());
        if let Some(mask) = nulls.mask() {
            assert_eq!((mask.len(), mask.words().len()), (array.len(), array.len().div_ceil(64)));
            let ones: u32 = mask.words().iter().map(|word| word.count_ones()).sum();
            assert_eq!(ones as usize, mask.len() - mask.null_count(), "bits past the last slot");
        }
    }
    masks.len()
}
