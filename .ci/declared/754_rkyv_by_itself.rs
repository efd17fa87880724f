use rkyv::{self as kept, Archive};

#[derive(Archive, kept::Serialize, kept::Deserialize)]
pub struct Sample {
    pub level: u32,
}

impl serde::Serialize for Sample {
    fn serialize<S: serde::Serializer>(&self, serializer: S) -> Result<S::Ok, S::Error> {
        serializer.serialize_u8(self.level as u8)
    }
}
