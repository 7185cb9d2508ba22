//! The phase along the moistures, without its jumps by whole turns.

use crate::curve::{Row, Value};

const TURN: f64 = 360.0;

/// In the order of rising moisture, each phase at a frequency by whole turns to the one nearest to that of the next lower moisture that has one. The rows
/// stay in their order.
pub fn joined(mut rows: Vec<Row>) -> Vec<Row> {
    let mut rising: Vec<&mut Row> = rows.iter_mut().collect();
    rising.sort_by(|a, b| a.sheet.moisture.total_cmp(&b.sheet.moisture));
    let mut lower = vec![None; rising.first().map_or(0, |row| row.values.len())];
    for row in rising {
        row.values.iter_mut().zip(&mut lower).for_each(|(value, lower)| follow(value, lower));
    }
    rows
}

/// What is no number is left, and followed by none.
fn follow(value: &mut Value, lower: &mut Option<f64>) {
    if value.degrees.is_finite() {
        let turns = lower.map_or(0.0, |lower| ((value.degrees - lower) / TURN).round());
        value.degrees -= turns * TURN;
        *lower = Some(value.degrees);
    }
}

#[cfg(test)]
mod tests {
    use super::*;
    use crate::curve::plan::WetSheet;
    use cichowiej::Material;

    /// The phases of rows with these moistures, joined; a list a row, a phase a frequency.
    fn phases<const N: usize>(rows: &[(f64, [f64; N])]) -> Vec<[f64; N]> {
        let value = |degrees| Value { db: 0.0, degrees, reflected: None };
        let row = |&(moisture, degrees): &(f64, [f64; N])| {
            let sheet = WetSheet { moisture, material: Material::plain(1.0), shares: None };
            Row { sheet, values: degrees.map(value).to_vec(), energy: 1.0 }
        };
        let joined = joined(rows.iter().map(row).collect());
        assert!(joined.iter().zip(rows).all(|(row, given)| row.sheet.moisture == given.0), "another order");
        joined.iter().map(|row| std::array::from_fn(|f| row.values[f].degrees)).collect()
    }

    #[test]
    fn it_goes_on_down_below_half_a_turn() {
        let rows = [(2.0, [-82.0]), (4.0, [-164.0]), (6.0, [153.0]), (8.0, [71.0]), (10.0, [-20.0]), (12.0, [160.5])];
        assert_eq!(phases(&rows), [[-82.0], [-164.0], [-207.0], [-289.0], [-380.0], [-559.5]]);
    }

    #[test]
    fn it_goes_on_up_above_half_a_turn() {
        assert_eq!(phases(&[(1.0, [170.0]), (2.0, [-170.0]), (3.0, [10.0])]), [[170.0], [190.0], [370.0]]);
    }

    /// What needs no turn keeps its bits, and the lowest moisture's its turn.
    #[test]
    fn what_does_not_jump_stays() {
        let given = [(1.0, [-179.999_999_1]), (2.0, [-0.0]), (3.0, [0.1 + 0.2])];
        let bits: Vec<u64> = phases(&given).iter().map(|row| row[0].to_bits()).collect();
        assert_eq!(bits, given.map(|row| row.1[0].to_bits()));
        assert!(phases::<1>(&[]).is_empty());
    }

    #[test]
    fn rows_may_stand_in_any_order_and_twice() {
        let rows = [(8.0, [71.0]), (4.0, [-164.0]), (8.0, [70.0]), (2.0, [-82.0]), (6.0, [153.0])];
        assert_eq!(phases(&rows), [[-289.0], [-164.0], [-290.0], [-82.0], [-207.0]]);
    }

    #[test]
    fn what_is_no_number_is_passed_over() {
        let rows = [(1.0, [f64::NAN]), (2.0, [-150.0]), (3.0, [f64::NAN]), (4.0, [120.0]), (5.0, [f64::INFINITY])];
        let joined = phases(&rows);
        assert!(joined[0][0].is_nan() && joined[2][0].is_nan() && joined[4][0] == f64::INFINITY, "{joined:?}");
        assert_eq!((joined[1], joined[3]), ([-150.0], [-240.0]));
    }

    #[test]
    fn each_frequency_goes_by_itself() {
        let rows = [(1.0, [-170.0, 10.0]), (2.0, [170.0, f64::NAN]), (3.0, [100.0, -10.0])];
        let joined = phases(&rows);
        assert_eq!(joined.iter().map(|row| row[0]).collect::<Vec<f64>>(), [-170.0, -190.0, -260.0]);
        assert_eq!((joined[0][1], joined[2][1]), (10.0, -10.0));
    }
}
