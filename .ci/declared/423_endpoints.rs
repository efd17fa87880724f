endpoints! {
    list = ENDPOINT_LIST;
    | EndpointTy | RequestTy | ResponseTy | Path |
    | ---------- | --------- | ---------- | ---- |
    | Ping | u32 | u32 | "ping" |
}
// message
struct A(u8);
