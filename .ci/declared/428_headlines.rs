// Message
struct Header;
// messages are sent by the device
enum Other { X }
// message: see docs/protocol.md
#[derive(serde::Serialize, serde::Deserialize)]
struct A(u8);
#[derive(serde::Serialize, serde::Deserialize)]
struct B(u16);
