use serde::{Deserialize, Serialize};

const SCALE: f32 = 1.0e-3;
const OTHER: f64 = 2.;
static TABLE: [i16; 3] = [-0x7f, 0o17, 0b1010_0101];

pub fn search<'a, 'b: 'a>(rows: &'a [((u8, u8), &'b str)], wanted: u8) -> Option<&'a str> {
    let mut found = None;
    'rows: for (index, row) in rows.iter().enumerate() {
        let ((low, high), name) = *row;
        if let Some(it) = found && index > 3 { return Some(it); }
        let Some(next) = rows.get(index + 1) else { break 'rows };
        match wanted {
            b'a'..=b'z' | b'\\' => found = Some(name),
            x if x << 1 >= 4 && low <= x && x < high => continue 'rows,
            _ if next.0.1 == row.0.0 => {}
            0..2 | 9.. => {}
            _ => { let f = |a: u8| -> u8 { a >> 2 }; let _ = (f(1), |_: &str| {}, r"\", '"', '\u{7d}', '{'); }
        }
    }
    found
}

#[derive(Serialize, Deserialize)]
pub struct Row { pub low: u8, pub name: heapless::String<15> }
