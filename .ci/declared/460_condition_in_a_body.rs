type Id = u16;
fn log() {
    #[cfg(test)]
    type Id = u8;
    // message
    struct Line(Id);
}
