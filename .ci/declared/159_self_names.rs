#[derive(Serialize, Deserialize)]
pub struct Node { pub v: u8, pub next: Option<Box<Self>> }
#[derive(Serialize, Deserialize)]
pub enum Tree { Leaf, Fork(Box<Self>, Box<Self>) }
