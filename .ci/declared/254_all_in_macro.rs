serde_with::with_prefix!(prefix "x_");
delegate! { struct Inner { a: u8 } }
thread_local! { static X: core::cell::Cell<u8> = core::cell::Cell::new(0); }
pin_project! { pub struct Fut<F> { #[pin] f: F } }
#[derive(serde::Serialize, serde::Deserialize)]
pub struct A { pub inner: Inner }
