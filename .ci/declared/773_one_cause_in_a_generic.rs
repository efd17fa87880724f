//! A type with a parameter, whose field is refused however often it is used.
// message
struct Framed<T> {
    id: Uuid,
    of: T,
}
// message
struct Both {
    first: Framed<u8>,
    second: Framed<u16>,
    third: Framed<Option<u16>>,
}
// message
struct Cut { level }
