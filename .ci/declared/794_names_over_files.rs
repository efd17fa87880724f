// Aliases through modules, and parameters that have the names of declared types, modules and constants.
mod a {
    pub type A = super::b::B;
}
mod b {
    pub type B = super::c::C<3>;
}
mod c {
    pub type C<const N: usize> = [super::d::D; N];
}
mod d {
    pub type D = self::e::E;
    pub mod e {
        pub type E = super::super::F;
    }
}
// message
pub struct F(pub [u8; 2]);
// message
pub struct T(pub [u8; 7]);
const N: usize = 3;
mod m {
    // message
    pub struct T(pub [u8; 4]);
    pub type Pair<U> = (U, T);
}
type Swapped<A, B> = (B, A);
type Half<F> = Swapped<F, [u8; 3]>;
// message
pub struct Hides<F>(F, [F; 2]);
// message
pub struct HidesLength<const N: usize>([u8; N], [u8; self::N]);
// message
pub struct HidesModule<m>(m);
// message
pub struct NoLength<N>(N, [u8; crate::N]);
// message
struct Chain(a::A, c::C<{ 1 + 1 }>);
// message
struct Pairs(m::Pair<T>, Half<T>, Swapped<T, Half<bool>>);
// message
struct Hidden(Hides<bool>, Hides<F>, Hides<Hides<F>>);
// message
struct Lengths(HidesLength<5>, HidesLength<N>, HidesLength<{ N + 1 }>, NoLength<u8>, NoLength<[u8; N]>);
// message
struct Modules(HidesModule<m::T>);
