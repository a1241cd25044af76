//! Readings of outdoor units in one column, and the table of them.

use cangxole::{Processor, Refusal, UnionBuilder};

fn main() -> Result<(), Refusal> {
    let mut builder = UnionBuilder::new_dense(8)?;
    builder.append("unit 12", 21.5)?;
    builder.append_null::<f64>("unit 13")?;
    builder.append("unit 12", 19.25)?;
    builder.append("unit 14", -3i32)?;
    if let Err(refusal) = builder.append("unit 12", 20i32) {
        println!("{refusal}");
    }

    let array = builder.finish();
    println!("slot  id  name     value");
    for (i, slot) in array.values(..)?.iter().enumerate() {
        println!("{i:4}  {:2}  {:7}  {}", slot.type_id, slot.name, slot.value);
    }
    let nulls = array.logical_nulls(Processor::default())?;
    let null: Vec<usize> = (0..array.len()).filter(|i| nulls.is_null(*i)).collect();
    println!("{} null of {}: slots {null:?}", nulls.null_count(), array.len());
    Ok(())
}
