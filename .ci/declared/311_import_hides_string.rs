mod text {
    // message
    pub struct String { pub length: u8 }
}
use text::String;
// message
struct A(String, std::string::String);
