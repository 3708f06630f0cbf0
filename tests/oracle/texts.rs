// The texts of levels and ratios, by floats.
// Halves and quarters are exact in binary, so the decimals asked for are all there are. A float's own zero could
// print a minus, so the sign is written apart.
pub fn level(count: u16) -> String {
    let sign = if count > 0 { "-" } else { "" };
    format!("{}{:.1}", sign, f64::from(count) / 2.0)
}

pub fn ratio(count: i8) -> String {
    let sign = if count < 0 { "-" } else { "" };
    format!("{}{:.2}", sign, f64::from(count).abs() / 4.0)
}
