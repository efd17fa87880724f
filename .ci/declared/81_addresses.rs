#[derive(Serialize, Deserialize)]
struct T { at: std::net::Ipv4Addr }
