# [ derive ( Serialize , Deserialize , ) ]
# [ repr ( u8 ) ]
pub
enum
E
{ A = b'a' as isize , # [ allow ( dead_code ) ] B ( u8 , ) , C { x : u16 , } , }
#[derive(/* one */ Serialize, // two
    Deserialize)] pub struct S(#[serde(/* skip */)] pub u8,);
#[derive(Serialize, Deserialize)] struct Z {} struct NotMarked(u64); #[derive(Deserialize, Serialize)] struct Last;
