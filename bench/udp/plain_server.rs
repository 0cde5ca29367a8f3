//! The plain controller behind two UDP ports, with a thread for each, as `bmcnet serve` has: `net serve P0 P1 TURNS`.

use crate::shared::{Ipmb, Port, Shared, Smbus};
use crate::slots::Out;
use std::io;
use std::net::{Ipv4Addr, UdpSocket};
use std::time::Duration;

/// How long a thread waits for a datagram.
const WAIT: Duration = Duration::from_millis(200);

fn open(port: u16) -> io::Result<UdpSocket> {
    let socket = UdpSocket::bind((Ipv4Addr::LOCALHOST, port))?;
    socket.set_read_timeout(Some(WAIT))?;
    Ok(socket)
}

/// Listens so many times, and answers what is heard. A datagram of over 80 bytes is no frame.
fn work<P: Port>(shared: &Shared, mut port: P, socket: &UdpSocket, turns: u32) {
    let mut out = Out::new();
    for _ in 0..turns {
        let mut bytes = [0; 81];
        let Ok((length, sender)) = socket.recv_from(&mut bytes) else {
            continue;
        };
        let frame = if length > 80 { &[] } else { &bytes[..length] };
        port.on_frame(shared, frame, &mut out);
        for reply in out.sent() {
            let _ = socket.send_to(reply.as_slice(), sender);
        }
    }
}

/// Serves the sample board, and says how many requests it carried out.
pub fn serve(ports: [u16; 2], turns: u32) -> io::Result<()> {
    let (first, second) = (open(ports[0])?, open(ports[1])?);
    let shared = Shared::sample();
    std::thread::scope(|scope| {
        scope.spawn(|| work(&shared, Ipmb::new(), &first, turns));
        scope.spawn(|| work(&shared, Smbus::new(), &second, turns));
    });
    let (events, _) = shared.close();
    println!("served {events}");
    Ok(())
}
