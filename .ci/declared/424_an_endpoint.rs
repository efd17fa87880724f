endpoints! { list = ENDPOINT_LIST; | EndpointTy | RequestTy | | Ping | u32 | }
// message
struct A(Ping);
