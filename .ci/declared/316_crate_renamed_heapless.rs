extern crate own_texts as heapless;
// message
struct A(heapless::String);
