//! Says where the points of a track lie in a field: track FIELD < POINTS. A point is two whole numbers, in centimetres. All points are handed
//! over in one call, which reads the field's text once. Prints a line for each.
use std::io::Read;

/// A point, with room for its answer: 0 outside, 1 inside or 2 on the edge, and the nearest corner; or 33 and 0, where it is out of range.
#[repr(C)]
struct Point {
    x: i32,
    y: i32,
    answer: u32,
    nearest: u32,
}

extern "C" {
    fn fieldtext_track(
        text: *const u8, text_length: usize, track: *mut Point, track_length: usize, table: *mut u8, corners: *mut i32,
    ) -> u8;
}

/// Answers each point of the track; or gives the number of the text's refusal, and leaves the track as it is.
fn answer(text: &[u8], track: &mut [Point]) -> Result<(), u8> {
    let mut table = [0; 7920];
    let mut corners = [0; 2048];
    // SAFETY: text and track come with their lengths; Point has the header's layout; table and corners have the lengths that the header names; all
    // but the text are borrowed for writing.
    let refusal = unsafe {
        fieldtext_track(
            text.as_ptr(), text.len(), track.as_mut_ptr(), track.len(), table.as_mut_ptr(), corners.as_mut_ptr(),
        )
    };
    if refusal == 0 { Ok(()) } else { Err(refusal) }
}

fn main() -> std::io::Result<()> {
    let text = std::fs::read(std::env::args().nth(1).unwrap_or_default())?;
    let mut points = String::new();
    std::io::stdin().read_to_string(&mut points)?;
    let mut track = Vec::new();
    for line in points.lines() {
        let numbers: Vec<i32> = line.split_whitespace().filter_map(|word| word.parse().ok()).collect();
        let &[x, y] = &numbers[..] else { continue };
        track.push(Point { x, y, answer: 0, nearest: 0 });
    }
    if let Err(number) = answer(&text, &mut track) {
        println!("refused {number}");
        return Ok(());
    }
    for Point { x, y, answer, nearest } in track {
        match ["outside", "inside", "edge"].get(answer as usize) {
            Some(place) => println!("{x} {y}: {place}, corner {nearest}"),
            None => println!("{x} {y}: refused {answer}"),
        }
    }
    Ok(())
}
