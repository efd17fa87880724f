use other::texts as std;
// message
struct A(std::string::String);
