//! Refusals and their sentences.

use cangxole::{Reading, Refusal, UnionBuilder};
use std::error::Error;

fn full() -> Result<(), Box<dyn Error>> {
    let mut builder = UnionBuilder::with_capacity_dense(1, 1)?;
    builder.append("a", 1i8)?;
    builder.append("a", 1i8)?;
    Ok(())
}

#[test]
fn a_refusal_is_an_error_with_a_sentence() {
    let error = full().unwrap_err();
    assert_eq!(error.to_string(), "refusal 19: the builder has no slot left");
    assert_eq!(error.downcast::<Refusal>().unwrap().number(), 19);
}

#[test]
fn a_run_tells_how_many_were_refused() {
    let mut builder = UnionBuilder::with_capacity_dense(2, 1).unwrap();
    let readings = ["a", "b", "a", "a"].map(|name| Reading::new(name, 1i8));
    let error = builder.append_all(readings).unwrap_err();
    let sentence =
        "2 of 4 readings refused, the first at 1 by refusal 20: the name is new, and the builder has no column left";
    assert_eq!(error.to_string(), sentence);
    assert_eq!(builder.len(), 2);
}

#[test]
fn arrays_and_builders_show_their_slots() {
    let mut builder = UnionBuilder::with_capacity_dense(2, 1).unwrap();
    builder.append_null::<i8>("a").unwrap();
    let slots = r#"[Slot { type_id: 0, name: "a", value: Null(Int8) }]"#;
    let array = format!("UnionArray {{ dense: true, slots: {slots} }}");
    assert_eq!(format!("{builder:?}"), format!("UnionBuilder {{ capacity: 2, array: {array} }}"));
    assert_eq!(format!("{:?}", builder.finish()), array);
}
