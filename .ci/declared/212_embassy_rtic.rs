#![no_std]
#![no_main]
#![feature(type_alias_impl_trait)]
use defmt::{info, Format};
use embassy_executor::Spawner;
use embassy_sync::blocking_mutex::raw::ThreadModeRawMutex;
use embassy_sync::channel::Channel;
use embassy_time::{Duration, Instant, Timer};
use serde::{Deserialize, Serialize};
use {defmt_rtt as _, panic_probe as _};

bind_interrupts!(struct Irqs {
    USART1 => usart::InterruptHandler<peripherals::USART1>;
});

static CHANNEL: Channel<ThreadModeRawMutex, Telemetry, 4> = Channel::new();

#[derive(Clone, Copy, Debug, Format, Serialize, Deserialize, PartialEq)]
#[non_exhaustive]
#[repr(u8)]
pub enum Telemetry {
    /// Temperature, in hundredths of a degree.
    ///
    /// ```
    /// let t = Telemetry::Temperature(2150);
    /// #[derive(Serialize)]
    /// struct Hidden { a: u8 }
    /// ```
    Temperature(i16) = 1,
    /// Battery.
    Battery { millivolts: u16, charging: bool } = 2,
    #[doc(hidden)]
    Reserved = 255,
}

#[embassy_executor::task]
async fn sender(mut uart: UartTx<'static, USART1>) -> ! {
    let mut buffer = [0u8; 64];
    loop {
        let message = CHANNEL.receive().await;
        let used = postcard::to_slice_cobs(&message, &mut buffer).unwrap();
        let _ = uart.write(used).await;
        Timer::after(Duration::from_millis(10)).await;
    }
}

#[rtic::app(device = stm32f4xx_hal::pac, dispatchers = [SPI1])]
mod app {
    use super::*;
    #[shared]
    struct Shared { count: u32 }
    #[local]
    struct Local { led: u8 }
    #[derive(Serialize, Deserialize)]
    pub struct Beat { pub at: u64, pub what: Telemetry }
    #[init]
    fn init(cx: init::Context) -> (Shared, Local) { (Shared { count: 0 }, Local { led: 0 }) }
}
