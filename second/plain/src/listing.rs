//! The listing: what the program prints of a link file.

use crate::file::read;
use crate::groups::{gauges_of, list};
use crate::table::{MOST_LINKS, Refusal, refused};

const MOST_BYTES: usize = 40_960;
const MOST_ROWS: usize = 2048;

fn rows_of(input: &[u8]) -> Result<Vec<u64>, Refusal> {
    if input.len() > MOST_BYTES {
        return refused(27, 0);
    }
    let (reply, numbers) = read(input, &[0; 4 * MOST_LINKS]);
    let file = reply?;
    let table = &numbers[..4 * file.links as usize];
    let (reply, rows) = list(table, file.gauges as u32, &[0; 3 * MOST_ROWS]);
    Ok(rows[..3 * reply? as usize].to_vec())
}

/// The text of the listing of a link file.
pub fn listing(input: &[u8]) -> String {
    match rows_of(input) {
        Err(refusal) => format!("refused {} {}\n", refusal.reason, refusal.place),
        Ok(rows) => {
            let mut text = format!("groups {}\n", rows.len() / 3);
            for row in rows.chunks(3) {
                let gauges: Vec<String> = gauges_of(row[2]).map(|k| k.to_string()).collect();
                text += &format!("{} {} {}\n", row[0], row[1], gauges.join(","));
            }
            text
        }
    }
}

#[cfg(test)]
mod tests {
    use super::*;
    use crate::file::file_of;

    #[test]
    fn the_listing_of_t() {
        let t = [
            1, 9, 0, 1, 3, 12, 1, 2, 5, 14, 0, 2, 7, 20, 2, 3, 10, 18, 1, 3,
        ];
        assert_eq!(
            listing(&file_of(&t, 4)),
            "groups 7\n1 9 0,1\n3 12 1,2\n5 9 0,1,2\n5 14 0,2\n7 20 2,3\n10 12 1,2,3\n10 18 1,3\n"
        );
    }

    #[test]
    fn refusals() {
        assert_eq!(listing(&[]), "refused 20 0\n");
        assert_eq!(listing(&[0; 40_961]), "refused 27 0\n");
        assert_eq!(listing(&file_of(&[], 4)), "groups 0\n");
        assert_eq!(listing(&file_of(&[0, 1, 0, 4], 4)), "refused 4 0\n");
    }
}
