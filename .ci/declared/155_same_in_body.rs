#[derive(Serialize, Deserialize)]
pub struct Point { x: u8 }
#[cfg(test)]
mod tests {
    use super::*;
    #[derive(Serialize, Deserialize)]
    struct Point { x: u64, y: u64 }
}
#[derive(Serialize, Deserialize)]
pub struct Holder { p: Point }
