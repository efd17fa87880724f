#[derive(Serialize, Deserialize)]
struct W<T>(T, u8) where T: Copy + Into<[u8; 2]>;
#[derive(Serialize, Deserialize)]
struct U { w: W<u16>, v: W<W<i8>> }
