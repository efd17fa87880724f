//! The messages stand between tasks, statics and tests.
#![no_std]
#![no_main]
use embassy_executor::Spawner;
use embassy_sync::{blocking_mutex::raw::CriticalSectionRawMutex, channel::Channel};
use serde::{Deserialize, Serialize};
use static_cell::StaticCell;
use {defmt_rtt as _, panic_probe as _};

bind_interrupts!(struct Irqs {
    USART1 => usart::InterruptHandler<peripherals::USART1>;
});

static EVENTS: Channel<CriticalSectionRawMutex, Event, 8> = Channel::new();
static BUFFER: StaticCell<[u8; 256]> = StaticCell::new();

#[derive(Clone, Serialize, Deserialize, defmt::Format)]
pub enum Event { Button { pressed: bool }, Tick(u32) }

#[embassy_executor::task(pool_size = 2)]
async fn blink(mut led: Output<'static>) -> ! {
    #[derive(Clone, Copy)]
    struct Event { n: u64 }
    loop { led.toggle(); Timer::after_millis(Event { n: 300 }.n).await; }
}

#[embassy_executor::main]
async fn main(spawner: Spawner) {
    let (tx, mut rx) = { let it = usart(); it.split() };
    spawner.spawn(blink(led)).unwrap();
    select! { _ = rx.read() => {}, event = EVENTS.receive() => send(event).await }
}

#[cfg(test)]
mod tests {
    use super::*;

    #[test]
    fn round_trip() {
        #[derive(PartialEq)]
        enum Event { Other }
        let mut buffer = [0; 16];
        assert_eq!(postcard::to_slice(&super::Event::Tick(1), &mut buffer).unwrap(), &[1, 1]);
    }
}
