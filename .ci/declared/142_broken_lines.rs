#[derive(serde::Serialize, serde::Deserialize)]
pub enum E
{
    A
    (
        u8,
    ),
    B
    {
        x: u8
    }
}
