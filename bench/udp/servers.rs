//! The three servers, each a process of its own.

use crate::place;
use std::io;
use std::net::{Ipv4Addr, UdpSocket};
use std::process::{Child, Command, Stdio};
use std::time::{Duration, Instant};

/// How long a server may take to begin, and to end.
const PATIENCE: Duration = Duration::from_secs(20);

/// Which server.
#[derive(Clone, Copy, Debug, PartialEq, Eq)]
pub enum Server {
    /// `bmcnet serve`.
    Serve,
    /// The echo in C.
    Echo,
    /// The plain controller.
    Plain,
}

pub const SERVERS: [Server; 3] = [Server::Serve, Server::Echo, Server::Plain];

/// What each server is started by.
pub struct Programs {
    pub bmcnet: String,
    pub board: String,
    pub echo: String,
    /// The sizes that the echo answers, by port.
    pub sizes: [String; 2],
}

impl Programs {
    /// A server's command, run by a watcher where there is one.
    fn command(
        &self,
        watcher: &[&str],
        server: Server,
        ports: [u16; 2],
        turns: usize,
    ) -> io::Result<Command> {
        let numbers = [
            ports[0].to_string(),
            ports[1].to_string(),
            turns.to_string(),
        ];
        let program = match server {
            Server::Serve => self.bmcnet.clone(),
            Server::Echo => self.echo.clone(),
            Server::Plain => std::env::current_exe()?.to_string_lossy().into_owned(),
        };
        let mut command = match watcher {
            [] => Command::new(program),
            [watcher, words @ ..] => {
                let mut command = Command::new(watcher);
                command.args(words).arg(program);
                command
            }
        };
        match server {
            Server::Serve => command.args(["serve", &self.board]).args(numbers),
            Server::Echo => command.args(numbers).args(&self.sizes),
            Server::Plain => command.arg("serve").args(numbers),
        };
        Ok(command)
    }
}

/// A server that runs.
pub struct Running {
    child: Child,
    server: Server,
    pub ports: [u16; 2],
}

/// Two ports that nobody uses.
fn free_ports() -> io::Result<[u16; 2]> {
    let first = UdpSocket::bind((Ipv4Addr::LOCALHOST, 0))?;
    let second = UdpSocket::bind((Ipv4Addr::LOCALHOST, 0))?;
    Ok([first.local_addr()?.port(), second.local_addr()?.port()])
}

/// Whether both ports of the loopback address are bound.
fn are_bound(ports: [u16; 2]) -> io::Result<bool> {
    let table = std::fs::read_to_string("/proc/net/udp")?;
    Ok(ports
        .iter()
        .all(|port| table.contains(&format!(" 0100007F:{port:04X} "))))
}

impl Running {
    /// Starts a server that listens so many times at each port, on processors of its own or on any, and waits until it's there.
    pub fn start(
        programs: &Programs,
        server: Server,
        turns: usize,
        is_apart: bool,
    ) -> io::Result<Running> {
        let placed: &[&str] = if is_apart {
            &["taskset", "-c", place::SERVERS]
        } else {
            &[]
        };
        Running::watched(programs, placed, server, turns)
    }

    /// The same, by a command that watches it.
    pub fn watched(
        programs: &Programs,
        watcher: &[&str],
        server: Server,
        turns: usize,
    ) -> io::Result<Running> {
        let ports = free_ports()?;
        let child = programs
            .command(watcher, server, ports, turns)?
            .stdin(Stdio::null())
            .stdout(Stdio::piped())
            .spawn()?;
        let mut running = Running {
            child,
            server,
            ports,
        };
        let begin = Instant::now();
        while !are_bound(ports)? {
            if running.child.try_wait()?.is_some() || begin.elapsed() > PATIENCE {
                return Err(io::Error::other(format!("{server:?} did not begin")));
            }
            std::thread::sleep(Duration::from_micros(200));
        }
        Ok(running)
    }

    /// Calls `hurry` until the server ended, and looks at what it says: that it carried out so many requests.
    pub fn end(mut self, requests: usize, hurry: impl Fn()) -> io::Result<()> {
        let begin = Instant::now();
        while self.child.try_wait()?.is_none() {
            if begin.elapsed() > PATIENCE {
                return Err(io::Error::other(format!("{:?} did not end", self.server)));
            }
            hurry();
            std::thread::sleep(Duration::from_millis(1));
        }
        let mut said = String::new();
        if let Some(mut out) = self.child.stdout.take() {
            io::Read::read_to_string(&mut out, &mut said)?;
        }
        let is_well = self.child.wait()?.success()
            && match self.server {
                Server::Echo => said.is_empty(),
                // A debugger speaks, too.
                Server::Serve | Server::Plain => {
                    let wanted = format!("served {requests}");
                    said.lines().any(|line| line == wanted)
                }
            };
        if !is_well {
            let server = self.server;
            return Err(io::Error::other(format!(
                "{server:?} was asked {requests} requests, and said {said:?}"
            )));
        }
        Ok(())
    }
}

impl Drop for Running {
    /// Ends the server where it still runs.
    fn drop(&mut self) {
        let _ = self.child.kill();
        let _ = self.child.wait();
    }
}
