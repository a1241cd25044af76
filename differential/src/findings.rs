//! The rows of docs/DIFFERENCES.md, in its order, each on the original and on the port.

use crate::compare::{Mask, Port, number};
use crate::oracle::{Builder, Nulls, Outcome, Strategy, Union, Value, drop_masks_without_null};
use crate::plain::{
    Case, Growing, Kind, Lent, Reading, State, add_column, int8_columns as batch, memory, without_columns,
};
use crate::tally::Tally;

/// One port, and what came of it. The original is compared with the page's middle column, the port with its last one.
struct Rows<'a, P: Port> {
    port: &'a P,
    tally: &'a mut Tally,
}

const ONE: &[Option<u64>] = &[Some(1)];
const NULL: &[Option<u64>] = &[None];

pub fn all<P: Port>(port: &P, tally: &mut Tally) {
    let mut rows = Rows { port, tally };
    rows.kind_mismatch();
    rows.kind_mismatch_after_b();
    rows.panic();
    rows.padding();
    rows.word_under_null();
    rows.field_ids();
    rows.long_unions();
    rows.long_names();
    rows.limits();
    rows.many_names();
    rows.unchecked();
    rows.unchecked_masks();
    rows.unchecked_children();
    rows.skip_one();
    rows.mask_without_null();
}

fn try_new(case: &Case) -> Outcome<Union> {
    Union::try_new(&case.batch, &case.lent)
}

fn accepted(case: &Case) -> Union {
    try_new(case).answer().expect("an accepted union")
}

fn unchecked(case: &Case) -> Union {
    Union::new_unchecked(&case.batch, &case.lent).answer().expect("a union")
}

fn mask(union: &Union, cost: u8) -> Nulls {
    union.logical_nulls(cost).answer().expect("a mask")
}

/// The appends of one-letter columns: 'a' is of kind Int8, 'A' the same column as Int16. The values are 1, 2, 3 and on.
fn appends(letters: &str) -> impl Iterator<Item = Reading> {
    let kind = |letter: u8| if letter.is_ascii_lowercase() { Kind::Int8 } else { Kind::Int16 };
    letters
        .bytes()
        .zip(1..)
        .map(move |(letter, word)| Reading::new(&[letter.to_ascii_lowercase()], kind(letter), Some(word)))
}

/// The original's builder after these appends, and their numbers.
fn original_after(dense: bool, letters: &str) -> (Vec<u8>, Builder) {
    let mut builder = Builder::with_capacity(dense, 8);
    let numbers = appends(letters).map(|reading| number(&builder.append_reading(&reading))).collect();
    (numbers, builder)
}

/// A slot's id, name, whether it is missing, and bits.
type Slot = (i8, Vec<u8>, bool, u64);

fn slot_of(value: Value) -> Slot {
    (value.id, value.name, value.missing, value.bits)
}

fn shown(union: &Union, slot: usize) -> Option<Slot> {
    union.value(slot).answer().map(slot_of)
}

impl<P: Port> Rows<'_, P> {
    /// The port's builder of this size after these appends, and their numbers.
    fn port_after(&self, dense: bool, (capacity, limit): (usize, usize), letters: &str) -> (Vec<u8>, State, Lent) {
        let mut lent = memory(capacity, limit, 9);
        let (_, mut state) = self.port.with_capacity(dense, capacity, limit, &lent);
        let mut numbers = Vec::new();
        for reading in appends(letters) {
            let (number, after) = self.port.append(&state, &mut lent, &reading);
            numbers.push(number);
            state = after;
        }
        (numbers, state, lent)
    }

    /// The numbers of these appends, and each slot of what the port finishes after them.
    fn port_slots(&self, dense: bool, letters: &str) -> (Vec<u8>, Vec<Slot>) {
        let (numbers, state, lent) = self.port_after(dense, (8, 4), letters);
        let (_, batch, _) = self.port.finish(&state, &lent);
        let slot = |slot| slot_of(self.port.value(&batch, &lent, slot).1);
        (numbers, (0..batch.count).map(slot).collect())
    }

    fn kind_mismatch(&mut self) {
        for dense in [true, false] {
            self.tally.alone("a, a as Int16 twice", original_after(dense, "aAA").0, vec![0, 18, 0]);
            self.tally.model("a, a as Int16 twice", self.port_after(dense, (8, 4), "aAA").0, vec![0, 18, 18]);
            let (numbers, mut builder) = original_after(dense, "aA");
            self.tally.alone("a, a as Int16", numbers, vec![0, 18]);
            self.tally.alone("a, a as Int16; finish", builder.finish().sort(), "panicked");
            self.tally.alone("a, a as Int16; finish: the builder after it", builder.len(), 0);
            let slots = vec![(0, b"a".to_vec(), false, 1)];
            self.tally.model("a, a as Int16; finish", self.port_slots(dense, "aA"), (vec![0, 18], slots));
            let (numbers, mut builder) = original_after(dense, "aAa");
            let union = builder.finish().answer().unwrap();
            self.tally.alone("a, a as Int16, a", numbers, vec![0, 18, 0]);
            // Dense: both slots have offset 0 of a new child. Sparse: the first slot is a filled-in null.
            let first = if dense { (0, b"a".to_vec(), false, 3) } else { (0, b"a".to_vec(), true, 0) };
            self.tally.alone("a, a as Int16, a: slot 0", shown(&union, 0), Some(first));
            let slots = vec![(0, b"a".to_vec(), false, 1), (0, b"a".to_vec(), false, 3)];
            self.tally.model("a, a as Int16, a", self.port_slots(dense, "aAa"), (vec![0, 18, 0], slots));
        }
    }

    fn kind_mismatch_after_b(&mut self) {
        let ids = |builder: &Builder| {
            let text = format!("{:?}", builder.0);
            text.split("type_id: ").skip(1).map(|rest| rest[..1].to_owned()).collect::<String>()
        };
        let slots =
            |a, b, c| vec![(0, b"a".to_vec(), false, a), (1, b"b".to_vec(), false, b), (2, b"c".to_vec(), false, c)];
        for dense in [true, false] {
            let (numbers, mut builder) = original_after(dense, "abBc");
            let union = builder.finish().answer().unwrap();
            self.tally.alone("a, b, b as Int16, c", numbers, vec![0, 0, 18, 0]);
            self.tally.alone(
                "a, b, b as Int16, c: listed",
                union.listed(),
                vec![(0, b"a".to_vec()), (1, b"c".to_vec())],
            );
            let second = if dense { (1, b"c".to_vec(), false, 4) } else { (1, b"c".to_vec(), true, 0) };
            self.tally.alone("a, b, b as Int16, c: the slot of b", shown(&union, 1), Some(second));
            let expected = (vec![0, 0, 18, 0], slots(1, 2, 4));
            self.tally.model("a, b, b as Int16, c", self.port_slots(dense, "abBc"), expected.clone());
            let (numbers, mut builder) = original_after(dense, "abAc");
            self.tally.alone("a, b, a as Int16, c", numbers, vec![0, 0, 18, 0]);
            // After the refusal c gets the id 1, which b has; slot 0 still has the id 0, which no field has.
            self.tally.alone("a, b, a as Int16, c: ids of b and c", ids(&builder), "11".to_owned());
            self.tally.alone("a, b, a as Int16, c; finish", builder.finish().sort(), "panicked");
            self.tally.model("a, b, a as Int16, c", self.port_slots(dense, "abAc"), expected);
        }
    }

    fn panic(&mut self) {
        let none = without_columns(&[], None);
        let (union, port) = (accepted(&none), self.port);
        let sorts = [union.value(0).sort(), union.type_id(0).sort(), union.value_offset(0).sort()];
        self.tally.alone("no slots: slot 0", sorts, ["panicked"; 3]);
        let (batch_of, lent) = (&none.batch, &none.lent);
        let value = port.value(batch_of, lent, 0).0;
        let numbers = [value, port.type_id(batch_of, lent, 0).0, port.value_offset(batch_of, lent, 0).0];
        self.tally.model("no slots: slot 0", numbers, [10; 3]);
        self.tally.alone("no slots: slice (0, 1)", union.slice(0, 1).sort(), "panicked");
        self.tally.model("no slots: slice (0, 1)", port.slice(batch_of, lent, 0, 1).0, 9);
        self.tally.alone("no fields: child of 0", union.child(0).sort(), "panicked");
        self.tally.model("no fields: child of 0", port.child(batch_of, lent, 0).0, 11);
        let below = batch(&[], None, &[(-1, &[])]);
        self.tally.alone("a field of id -1", try_new(&below).sort(), "panicked");
        self.tally.model("a field of id -1", port.try_new(&below.batch, &below.lent), 1);
        let unchecked_rows = [
            ("a type id of no field", batch(&[1], None, &[(0, ONE)]), 7),
            ("an offset past the child", batch(&[0], Some(&[1]), &[(0, ONE)]), 8),
        ];
        for (what, case, number) in unchecked_rows {
            self.tally.alone(what, unchecked(&case).value(0).sort(), "panicked");
            self.tally.model(what, port.value(&case.batch, &case.lent, 0).0, number);
        }
    }

    /// The port's mask at a setting, in one word.
    fn port_mask(&self, case: &Case, cost: usize) -> (u8, Mask, u64) {
        let mut out = [9];
        let (number, mask) = self.port.null_mask(&case.batch, &case.lent, cost, &mut out);
        (number, mask, out[0])
    }

    fn padding(&mut self) {
        let five = batch(&[0], None, &[(0, NULL), (1, ONE)]);
        let mut one = batch(&[0], None, &[(0, NULL)]);
        one.lent.masks[0] = 0b10;
        let mut two = batch(&[0], None, &[(0, NULL), (1, NULL)]);
        two.lent.masks[0] = 0b10;
        for (case, route, raw) in [(five, 5, u64::MAX - 1), (one, 1, 2), (two, 2, 2)] {
            let nulls = mask(&accepted(&case), 10);
            self.tally.alone("padding", (nulls.route, nulls.raw), (route, vec![raw]));
            let mask = Mask { present: true, null_count: 1, route };
            self.tally.model("padding", self.port_mask(&case, 10), (0, mask, 0));
        }
    }

    fn word_under_null(&mut self) {
        let mut hidden = batch(&[0], None, &[(0, NULL)]);
        hidden.lent.values[0] = 77;
        let value = accepted(&hidden).value(0).answer().unwrap();
        self.tally.alone("a word under a null", (value.missing, value.bits), (true, 77));
        let (number, value) = self.port.value(&hidden.batch, &hidden.lent, 0);
        self.tally.model("a word under a null", (number, value.missing, value.bits), (0, true, 0));
    }

    /// A batch that the original accepts and the port does not.
    fn refused(&mut self, what: &str, case: &Case, number: u8) {
        self.tally.alone(what, try_new(case).sort(), "answered");
        self.tally.model(what, self.port.try_new(&case.batch, &case.lent), number);
    }

    fn field_ids(&mut self) {
        let twice = batch(&[0], None, &[(0, &[Some(1)]), (0, &[Some(2)])]);
        self.refused("id 0 twice", &twice, 1);
        self.tally.alone("id 0 twice: value", accepted(&twice).value(0).answer().unwrap().bits, 2);
        let ids: Vec<i8> = (0..=127).chain([0]).collect();
        let columns: Vec<(i8, &[Option<u64>])> = ids.iter().map(|id| (*id, [].as_slice())).collect();
        self.refused("129 fields", &batch(&[], None, &columns), 1);
    }

    fn long_unions(&mut self) {
        let slots = vec![Some(1); 65_537];
        self.refused("65,537 slots", &batch(&vec![0; 65_537], None, &[(0, &slots)]), 4);
        self.refused("a dense child of 65,537 slots", &batch(&[0], Some(&[0]), &[(0, &slots)]), 4);
    }

    fn long_names(&mut self) {
        let mut named = without_columns(&[], None);
        add_column(&mut named, 0, Kind::Int8, &[b'n'; 33], &[], false);
        self.refused("a name of 33 bytes", &named, 3);
        let (_, state, mut lent) = self.port_after(false, (1, 1), "");
        let number_of = number(&Builder::new_sparse().append(&"n".repeat(33), Kind::Int8, 1));
        self.tally.alone("a name of 33 bytes, appended", number_of, 0);
        let (number, _) = self.port.append(&state, &mut lent, &Reading::new(&[b'n'; 33], Kind::Int8, Some(1)));
        self.tally.model("a name of 33 bytes, appended", number, 17);
    }

    fn limits(&mut self) {
        for dense in [true, false] {
            let mut builder = Builder::with_capacity(dense, 1);
            let numbers: Vec<u8> = (0..2).map(|_| number(&builder.append("a", Kind::Int8, 1))).collect();
            self.tally.alone("C = 1; a, a", numbers, vec![0, 0]);
            self.tally.model("C = 1; a, a", self.port_after(dense, (1, 2), "aa").0, vec![0, 19]);
            self.tally.alone("a, b", original_after(dense, "ab").0, vec![0, 0]);
            self.tally.model("K = 1; a, b", self.port_after(dense, (2, 1), "ab").0, vec![0, 20]);
            let (_, state, mut lent) = self.port_after(dense, (2, 1), "");
            let one = |name: &[u8]| Reading::new(name, Kind::Int8, Some(1));
            let not_utf8 = self.port.append(&state, &mut lent, &one(b"\xed\xa0\x80")).0;
            self.tally.model("a name that is not UTF-8", not_utf8, 17);
            lent.names.pop();
            let short = self.port.append(&state, &mut lent, &one(b"a")).0;
            self.tally.model("too little memory lent", (short, self.port.finish(&state, &lent).0), (16, 16));
            let column = Growing { kind: Kind::Int8, size: 1, slots: 1, masked: false };
            let made_up = State { columns: vec![column], ..state };
            let refused = self.port.append(&made_up, &mut memory(2, 1, 9), &one(b"a")).0;
            self.tally.model("a builder that append did not make", refused, 15);
        }
    }

    fn many_names(&mut self) {
        for dense in [true, false] {
            let (mut builder, mut last) = (Builder::with_capacity(dense, 1), 0);
            for place in 0..128 {
                last = number(&builder.append(&format!("{place:03}"), Kind::Int8, 1));
            }
            self.tally.alone("128 names", (last, builder.finish_cloned().is_answer()), (0, true));
            self.tally.alone("the 129th name", number(&builder.append("128", Kind::Int8, 1)), 0);
            let id = format!("{:?}", builder.0).contains("type_id: -128");
            self.tally.alone("the 129th name has the id -128", id, true);
            let ends = [builder.finish_cloned().sort(), builder.finish().sort()];
            self.tally.alone("129 names: finish_cloned, finish", ends, ["panicked"; 2]);
            let mut lent = memory(129, 128, 9);
            self.tally.model("K = 129", self.port.with_capacity(dense, 129, 129, &lent).0, 15);
            let (_, mut state) = self.port.with_capacity(dense, 129, 128, &lent);
            let mut numbers = Vec::new();
            for place in 0..129 {
                let reading = Reading::new(format!("{place:03}").as_bytes(), Kind::Int8, Some(1));
                let (number, after) = self.port.append(&state, &mut lent, &reading);
                numbers.push(number);
                state = after;
            }
            let expected = [vec![0; 128], vec![20]].concat();
            self.tally.model("129 names", (numbers, self.port.finish(&state, &lent).0), (expected, 0));
        }
    }

    fn unchecked(&mut self) {
        let case = batch(&[3], None, &[(0, ONE), (1, ONE)]);
        let (stranger, port) = (unchecked(&case), self.port);
        let told = (stranger.type_id(0).answer(), stranger.value_offset(0).answer());
        self.tally.alone("unchecked: a type id of no field", told, (Some(3), Some(0)));
        let numbers = (port.type_id(&case.batch, &case.lent, 0).0, port.value_offset(&case.batch, &case.lent, 0).0);
        self.tally.model("unchecked: a type id of no field", numbers, (7, 7));
        let case = batch(&[0, 0], Some(&[2, -1]), &[(0, &[Some(1), None]), (1, ONE)]);
        let far = unchecked(&case);
        let told = (far.value_offset(0).answer(), far.value_offset(1).answer());
        self.tally.alone("unchecked: offsets outside of the child", told, (Some(2), Some(usize::MAX)));
        self.tally.alone("unchecked: null mask outside of the child", far.logical_nulls(10).sort(), "undefined");
        let offset = |slot| port.value_offset(&case.batch, &case.lent, slot).0;
        let numbers = (offset(0), offset(1), self.port_mask(&case, 10).0);
        self.tally.model("unchecked: offsets outside of the child", numbers, (8, 8, 8));
    }

    /// Slot 1 has the id of no field: what each strategy calls it. A case of 66 slots has it in whole 64 slots.
    fn unchecked_masks(&mut self) {
        for count in [2, 66] {
            let some: Vec<Option<u64>> = (0..count).map(|slot| (slot > 0).then_some(1)).collect();
            let (full, none) = (vec![None; count], vec![Some(1); count]);
            let ids: Vec<i8> = (0..count).map(|slot| if slot == 1 { 3 } else { 0 }).collect();
            let four = batch(&ids, None, &[(0, &some), (1, &some)]);
            let five = batch(&ids, None, &[(0, &some), (1, &none)]);
            let six = batch(&ids, None, &[(0, &full), (1, &full), (2, &full), (4, &none)]);
            let present = |case: &Case, cost: u8| {
                let nulls = mask(&unchecked(case), cost);
                (nulls.route, nulls.bits[0] >> 1 & 1)
            };
            self.tally.alone("unchecked: Gather calls it present", present(&four, 0), (3, 1));
            let skip_one = if count > 64 { 1 } else { 0 };
            self.tally.alone(
                "unchecked: SkipOne calls it null after whole 64 slots",
                present(&four, 10),
                (4, skip_one),
            );
            self.tally.alone("unchecked: SkipWithoutNulls calls it present", present(&five, 10), (5, 1));
            self.tally.alone("unchecked: SkipFullyNull calls it null", present(&six, 10), (6, 0));
            for (case, cost) in [(&four, 0), (&four, 10), (&five, 10), (&six, 10)] {
                let mut out = [9; 2];
                let number = self.port.null_mask(&case.batch, &case.lent, cost, &mut out).0;
                self.tally.model("unchecked: null mask of no field", (number, out), (7, [9; 2]));
            }
        }
    }

    fn unchecked_children(&mut self) {
        let longer = batch(&[0], None, &[(0, &[Some(1), Some(2)])]);
        let slots = unchecked(&longer).child(0).answer().map(|child| child.words.len());
        self.tally.alone("unchecked: a longer sparse child is cut", slots, Some(1));
        self.tally.model("a longer sparse child", self.port.child(&longer.batch, &longer.lent, 0).0, 6);
        let shorter = batch(&[0], None, &[(0, &[])]);
        let made = Union::new_unchecked(&shorter.batch, &shorter.lent);
        self.tally.alone("unchecked: a shorter sparse child", made.sort(), "panicked");
        self.tally.model("a shorter sparse child", self.port.child(&shorter.batch, &shorter.lent, 0).0, 6);
    }

    fn port_skip_one(&mut self, what: &str, case: &Case) {
        let mut out = [9];
        let number = self.port.strategy(&case.batch, &case.lent, Strategy::SkipOne, &mut out).0;
        self.tally.model(what, (number, out), (14, [9]));
    }

    fn skip_one(&mut self) {
        let skip_one = |case: &Case| accepted(case).strategy(Strategy::SkipOne);
        let one = batch(&[0], None, &[(0, ONE), (1, NULL)]);
        self.tally.alone("SkipOne, M 1 of 2", skip_one(&one).answer().unwrap().bits, vec![0]);
        self.port_skip_one("SkipOne, M 1 of 2", &one);
        let (valued, nulled) = (vec![Some(1); 64], vec![None; 64]);
        let many = batch(&[0; 64], None, &[(0, &valued), (1, &nulled)]);
        self.tally.alone("SkipOne, M 1 of 2, 64 slots", skip_one(&many).answer().unwrap().null_count, 64);
        self.port_skip_one("SkipOne, M 1 of 2, 64 slots", &many);
        let none = batch(&[0; 64], None, &[(0, &valued), (1, &valued)]);
        self.tally.alone("SkipOne, M 0 of 2, 64 slots", skip_one(&none).sort(), "panicked");
        self.port_skip_one("SkipOne, M 0 of 2, 64 slots", &none);
        let dense = batch(&[0, 1], Some(&[1, 0]), &[(0, &[None, Some(1)]), (1, NULL)]);
        let of = |strategy| accepted(&dense).strategy(strategy).answer().map(|nulls| nulls.bits[0]);
        let told = (of(Strategy::Gather), of(Strategy::SkipOne));
        self.tally.alone("SkipOne of a dense union: Gather, SkipOne", told, (Some(1), Some(0)));
        self.port_skip_one("SkipOne of a dense union", &dense);
    }

    fn mask_without_null(&mut self) {
        let mut case = without_columns(&[0], None);
        add_column(&mut case, 0, Kind::Int8, b"a", ONE, true);
        let nulls = |drops: bool| {
            drop_masks_without_null(drops);
            let nulls = mask(&accepted(&case), 10);
            drop_masks_without_null(false);
            (nulls.present, nulls.route)
        };
        self.tally.alone("a mask without a null, kept", nulls(false), (true, 1));
        self.tally.alone("a mask without a null, dropped as arrow-data does", nulls(true), (false, 0));
        let mask = Mask { present: true, null_count: 0, route: 1 };
        self.tally.model("a mask without a null", self.port_mask(&case, 10), (0, mask, 1));
    }
}
