// A `use` of one word that gives another name: the declaration of that name elsewhere isn't meant.
// message
pub struct Raw(pub [u8; 1]);
// message
pub struct Scaled(pub [u8; 2]);

fn body() {
    use Raw as Scaled;
    // message
    struct InBody(Scaled);
}

mod of_name {
    use super::adc::Raw;
    use Raw as Scaled;
    // message
    pub struct OfName(Scaled);
}

mod of_parent {
    use super::*;
    use Raw as Scaled;
    // message
    pub struct OfParent(Scaled);
}

mod adc {
    // message
    pub struct Raw(pub [u8; 5]);
    // message
    pub struct Scaled(pub [u8; 6]);
}

mod twice {
    use super::adc::Raw as Scaled;
    fn inner() {
        use Scaled;
        // message
        struct Twice(Scaled);
    }
}
