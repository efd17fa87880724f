// What the button `Example` shows: a session of a device, one send of which broke off, and the table that `wire check messages.rs json` prints of
//
//     #[derive(Serialize, Deserialize)]
//     pub enum Light { Dark, Lit(u8) }
//     #[derive(Serialize, Deserialize)]
//     pub struct Reading { pub sensor: u16, pub level: i16, pub light: Light }
//     #[derive(Serialize, Deserialize)]
//     pub enum Message { Hello { name: String, version: (u8, u8) }, Reading(Reading), Log(String), Mean(f32) }
export const exampleTable = JSON.parse(`{"version":1,"types":[{"name":"Light","line":2,"node":0},{"name":"Reading","line":4,"node":1},{"name":"Message","line":6,"node":2}],"nodes":[{"kind":"enum","variants":[{"name":"Dark","node":3},{"name":"Lit","node":4}],"size":2},{"kind":"struct","fields":[{"name":"sensor","node":5},{"name":"level","node":6},{"name":"light","node":0}],"size":8},{"kind":"enum","variants":[{"name":"Hello","node":11},{"name":"Reading","node":1},{"name":"Log","node":12},{"name":"Mean","node":13}],"size":null},{"kind":"empty","size":0},{"kind":"u8","size":1},{"kind":"u16","size":3},{"kind":"i16","size":3},{"kind":"text","most":null,"size":null},{"kind":"u8","size":1},{"kind":"u8","size":1},{"kind":"tuple","nodes":[8,9],"size":2},{"kind":"struct","fields":[{"name":"name","node":7},{"name":"version","node":10}],"size":null},{"kind":"text","most":null,"size":null},{"kind":"f32","size":4}]}`);
const digits = "00010e0a70756d702d3320c2b543020700020105da030182000501018506010011020e76616c76652035206f70656e65640007010200060372da59c000070103d804010900";
export const exampleBytes = Uint8Array.from(digits.match(/../g), (it) => parseInt(it, 16));
