//! Document 01's jobs, for the unit tests.

/// A job file: the plan, and for each table its mask and its values, row by row.
pub fn job(plan: &[u8], tables: &[(u32, &[i32])]) -> Vec<u8> {
    let mut file = (tables.len() as u32).to_le_bytes().to_vec();
    file.extend(plan);
    file.resize(12, 0);
    let mut offset = 12 + 16 * tables.len() as u32;
    for &(mask, values) in tables {
        let fields = mask.count_ones();
        let numbers = [fields, values.len() as u32 / fields, mask, offset];
        file.extend(numbers.iter().flat_map(|number| number.to_le_bytes()));
        offset += 4 * values.len() as u32;
    }
    for (_, values) in tables {
        file.extend(values.iter().flat_map(|value| value.to_le_bytes()));
    }
    file
}

/// Job W.
pub fn w() -> Vec<u8> {
    job(
        &[0, 1, 2],
        &[(3, &[1, 10, 2, 20]), (6, &[10, 5, 20, 6, 20, 7]), (4, &[6])],
    )
}

/// Job V: columns i, x, y, j, k, l as 0 to 5.
pub fn v() -> Vec<u8> {
    job(
        &[0, 1, 2, 3],
        &[
            (0b000011, &[1, 1, 2, 1]),
            (0b001110, &[1, 1, 1, 1, 1, 2]),
            (0b010100, &[1, 1, 1, 2]),
            (0b100100, &[0, 1, 0, 2]),
        ],
    )
}

/// P7: one table, rows (7) (7).
pub fn p7() -> Vec<u8> {
    job(&[0], &[(1, &[7, 7])])
}

/// P8: one empty table.
pub fn p8() -> Vec<u8> {
    job(&[0], &[(1, &[])])
}

/// P9: masks 1 and 2, rows 2 and 0.
pub fn p9() -> Vec<u8> {
    job(&[0, 1], &[(1, &[1, 2]), (2, &[])])
}

/// Two tables of so many rows without a shared column, each with values 0, 1, 2 and so on.
pub fn apart(first: i32, second: i32) -> Vec<u8> {
    let values = |rows: i32| (0..rows).collect::<Vec<i32>>();
    job(&[0, 1], &[(1, &values(first)), (2, &values(second))])
}
