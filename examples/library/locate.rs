//! Says where points lie in a field: locate FIELD < POINTS. A point is two whole numbers, in centimetres. Prints a line for each.
use std::io::Read;

extern "C" {
    fn fieldtext_locate(
        text: *const u8, text_length: usize, x: i32, y: i32, table: *mut u8, corners: *mut i32, nearest: *mut usize,
    ) -> u8;
}

/// What the library is lent for each call.
struct Lent {
    table: [u8; 7920],
    corners: [i32; 2048],
}

/// Where the point lies, 0 outside, 1 inside or 2 on the edge, and the nearest corner; or the number of a refusal.
fn locate(text: &[u8], (x, y): (i32, i32), lent: &mut Lent) -> Result<(u8, usize), u8> {
    let mut nearest = 0;
    // SAFETY: the text's pointer comes with its length; table, corners and nearest have the lengths that the header names, and are borrowed for writing.
    let answer = unsafe {
        fieldtext_locate(text.as_ptr(), text.len(), x, y, lent.table.as_mut_ptr(), lent.corners.as_mut_ptr(), &mut nearest)
    };
    if answer <= 2 { Ok((answer, nearest)) } else { Err(answer) }
}

fn main() -> std::io::Result<()> {
    let text = std::fs::read(std::env::args().nth(1).unwrap_or_default())?;
    let mut points = String::new();
    std::io::stdin().read_to_string(&mut points)?;
    let mut lent = Lent { table: [0; 7920], corners: [0; 2048] };
    for line in points.lines() {
        let numbers: Vec<i32> = line.split_whitespace().filter_map(|word| word.parse().ok()).collect();
        let &[x, y] = &numbers[..] else { continue };
        match locate(&text, (x, y), &mut lent) {
            Ok((answer, nearest)) => println!("{x} {y}: {}, corner {nearest}", ["outside", "inside", "edge"][usize::from(answer)]),
            Err(number) => println!("{x} {y}: refused {number}"),
        }
    }
    Ok(())
}
