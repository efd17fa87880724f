#![no_std]
#![no_main]
#![feature(type_alias_impl_trait)]
use embassy_executor::Spawner;
use embassy_stm32::{bind_interrupts, peripherals, usart};
use {defmt_rtt as _, panic_probe as _};
bind_interrupts!(struct Irqs { USART1 => usart::InterruptHandler<peripherals::USART1>; });
#[derive(serde::Serialize, serde::Deserialize, defmt::Format, Clone, Copy, Default)]
struct Sample { at: u64, mv: [u16; 3], ok: bool }
#[embassy_executor::main]
async fn main(_spawner: Spawner) {
    let p = embassy_stm32::init(Default::default());
    let mut buf = [0u8; 64];
    loop { let used = postcard::to_slice_cobs(&Sample::default(), &mut buf).unwrap(); }
}
