#[derive(Serialize, Deserialize)]
struct r#Frame { r#fn: u8, r#match: r#Kind }
#[derive(Serialize, Deserialize)]
enum Kind { r#Self_, Other }
