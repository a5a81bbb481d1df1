//! Each shape at each size opens in `second/`, and has exactly the rows that were asked for.

use boundary::bout::{Bout, Who, DEEDS};
use boundary::shapes::{ALL, ROLES, ROWS, VARIANTS};
use second::limits::ROW;
use second::numbers::ACCEPTED;

#[test]
fn every_shape_opens() {
    for shape in ALL {
        for rows in ROWS {
            for roles in 2..=8 {
                for variant in 0..VARIANTS {
                    let table = shape.table(rows, roles, variant);
                    assert_eq!(table.len(), rows * ROW, "{shape:?} {rows} {roles} {variant}");
                    let mut room = vec![0; roles * table.len()];
                    let verdict = second::open(&table, roles as u32, &mut room);
                    assert_eq!(verdict.number, ACCEPTED, "{shape:?} {rows} {roles} {variant}: {verdict:?}");
                }
            }
        }
    }
}

#[test]
fn both_sides_do_the_same_work() {
    for deed in DEEDS {
        for rows in ROWS {
            for roles in ROLES {
                let bout = Bout::new(deed, rows, roles).unwrap();
                assert_eq!(bout.run(Who::Ours, 3), bout.run(Who::Second, 3), "{deed:?} {rows} {roles}");
            }
        }
    }
}
