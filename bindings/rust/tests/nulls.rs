//! Every way to a null mask marks exactly the missing readings.

mod common;

use common::{Numbers, builder, marks, readings};

#[test]
fn every_setting_and_strategy_marks_the_same_slots() {
    let chances: [&[usize]; 8] =
        [&[0], &[2], &[4, 4], &[0, 0, 0], &[1, 4, 0], &[4, 4, 4, 1], &[2, 2], &[1, 2, 3, 1, 2, 3, 1, 2]];
    let mut masks = 0;
    for (case, missing) in chances.iter().enumerate() {
        for (dense, n) in [1, 63, 64, 65, 200].into_iter().flat_map(|n| [(false, n), (true, n)]) {
            let all = readings(&mut Numbers(case as u64), n, missing);
            let mut builder = builder(dense, n, missing.len());
            builder.append_all(all.iter().copied()).unwrap();
            let array = builder.finish();
            masks += marks(&array, &all);
            let (o, m) = (n / 3, n / 2);
            masks += marks(&array.slice(o, m).unwrap(), &all[o..o + m]);
        }
    }
    // Four settings for each of the 160 arrays, and the strategies that apply.
    assert!(masks > 160 * 5, "{masks} masks were looked at");
}
