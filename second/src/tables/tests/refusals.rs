//! Tests of the refusals of calls about tables, their order, and the lent rooms.

use super::*;

/// Any other size of a table, or of the room, is refusal 1, be there stray bits or not.
#[test]
fn wrong_sizes_of_tables() {
    let (nkl, tables) = kitchen_tables();
    assert_eq!(made(nkl, &tables, 10), Ok(kitchen().rows));
    for size in [0, 7, 9, 11, 4_096] {
        assert_eq!(made(nkl, &tables, size), Err(bare(1)));
    }
    for table in 0..3 {
        for length in (0..=5).filter(|length| *length != tables[table].len()) {
            for row in [0, Word::MAX] {
                let mut wrong = tables.clone();
                wrong[table] = vec![row; length];
                assert_eq!(made(nkl, &wrong, 10), Err(bare(1)));
            }
        }
    }
}

/// Wrong n, k and l are refusal 1, also where k + l or n + k would be right once wrapped at
/// 32 bits, and where tables and room have the sizes that they ask for.
#[test]
fn wrong_numbers() {
    for (n, k, l) in [(0, 0, 0), (1, 0, 1), (65, 1, 0), (65, 65, 0), (3, 2, 2)] {
        let tables = [k, l, l].map(|rows| vec![0; rows as usize]);
        assert_eq!(made([n, k, l], &tables, (n + k) as usize), Err(bare(1)));
    }
    let (most, half) = (u32::MAX, 1 << 31);
    for nkl in [
        [most, 1, 1],
        [7, most, 4],
        [7, 1, most],
        [7, half, half],
        [most, most, most],
    ] {
        for size in [0, 6, 8] {
            let tables = [vec![0], vec![0], vec![0]];
            assert_eq!(made(nkl, &tables, size), Err(bare(1)));
            let empty = [vec![], vec![], vec![]];
            assert_eq!(made(nkl, &empty, size), Err(bare(1)));
        }
    }
}

/// A stray bit at the first column that a table does not have, at the edge of 32 bits, and at
/// the last bit, in each row of each table: the row is counted through P, then R, then Q; the
/// first one is told.
#[test]
fn stray_bits() {
    let nkl = [9, 4, 2];
    let rows = [vec![7; 4], vec![15; 2], vec![7; 2]];
    assert!(made(nkl, &rows, 13).is_ok());
    let places = [(0, 0), (0, 3), (1, 0), (1, 1), (2, 0), (2, 1)];
    for (table, row) in places {
        let first = [0, 4, 6][table] + row as u32;
        for column in [[3, 4, 3][table], 31, 32, 63] {
            let mut wrong = rows.clone();
            wrong[table][row] |= 1 << column;
            assert_eq!(made(nkl, &wrong, 13), Err(placed(2, first)));
            wrong[2][1] = Word::MAX;
            assert_eq!(made(nkl, &wrong, 13), Err(placed(2, first)));
            assert_eq!(made(nkl, &wrong, 12), Err(bare(1)));
        }
    }
}

/// A table with no columns has rows that are 0: any bit of theirs is stray.
#[test]
fn stray_bits_without_columns() {
    let good = [vec![0], vec![1, 0], vec![0, 0]];
    assert!(made([3, 1, 2], &good, 4).is_ok());
    for (table, row, place) in [(0, 0, 0), (2, 0, 3), (2, 1, 4)] {
        let mut wrong = good.clone();
        wrong[table][row] = 1;
        assert_eq!(made([3, 1, 2], &wrong, 4), Err(placed(2, place)));
    }
    for (n, last) in [(32, 31), (64, 63)] {
        let (size, place) = (2 * n as usize, last as usize);
        let mut wide = [vec![0; n as usize], vec![], vec![]];
        assert!(made([n, n, 0], &wide, size).is_ok());
        wide[0][place] = 1 << last;
        assert_eq!(made([n, n, 0], &wide, size), Err(placed(2, last)));
    }
}

/// A room of another size for P, R or Q is refusal 1, before 2 to 6 and before 24; any
/// sheet whose numbers are wrong is, in any rooms.
#[test]
fn wrong_sizes_of_rooms() {
    let (mut stray, mut other) = (kitchen(), kitchen());
    stray.rows[0] |= 128;
    other.rows[0] ^= other.rows[3];
    assert!(admit(&other).is_ok());
    let right = [3, 1, 1];
    let told = [kitchen(), stray, other].map(|sheet| {
        for room in 0..3 {
            for size in (0..=4).chain([4_096]).filter(|size| *size != right[room]) {
                let mut sizes = right;
                sizes[room] = size;
                assert_eq!(given(&sheet, sizes), Err(bare(1)));
            }
        }
        given(&sheet, right)
    });
    let wanted = [Ok(kitchen_tables().1), Err(placed(2, 0)), Err(bare(24))];
    assert_eq!(told, wanted);
    let (n, k, l) = (7, u32::MAX, 4);
    let rows = vec![0; 6];
    let wrong = Sheet { n, k, l, rows };
    assert_eq!(given(&wrong, [3, 4, 4]), Err(bare(1)));
    let mut short = kitchen();
    short.rows.pop();
    assert_eq!(given(&short, right), Err(bare(1)));
}

/// Refusals 2 to 6 come before 24: sheets that break a rule and have another shape too.
#[test]
fn refusals_before_the_shape() {
    for (row, value, wanted) in [
        (3, 255, placed(2, 3)),
        (3, 126, placed(3, 3)),
        (7, 1, placed(4, 3)),
        (3, 0, placed(5, 3)),
        (6, 54, placed(6, 6)),
    ] {
        let mut sheet = kitchen();
        sheet.rows[row] = value;
        assert_eq!(tables_of(&sheet), Err(wanted));
        sheet.rows[0] ^= sheet.rows[1];
        sheet.rows[8] ^= sheet.rows[7];
        assert!(!has_shape(&sheet));
        assert_eq!(tables_of(&sheet), Err(wanted));
    }
}
