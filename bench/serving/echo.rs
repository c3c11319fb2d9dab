//! echo: a server of the same shape as `mps serve`, without a monitor. It accepts so many connections, a thread for each,
//! and writes each line back.
use std::io::{Read, Write};
use std::net::{TcpListener, TcpStream};

fn attend(mut stream: TcpStream) {
    let _ = stream.set_nodelay(true);
    let mut block = [0u8; 4096];
    let mut line = Vec::new();
    loop {
        let count = match stream.read(&mut block) {
            Ok(0) | Err(_) => return,
            Ok(count) => count,
        };
        for byte in &block[..count] {
            line.push(*byte);
            if *byte == b'\n' {
                if stream.write_all(&line).is_err() {
                    return;
                }
                line.clear();
            }
        }
    }
}

fn main() {
    let connections = std::env::args().nth(1).and_then(|word| word.parse().ok()).expect("a number of connections");
    let listener = TcpListener::bind("127.0.0.1:0").expect("a port");
    println!("listening {}", listener.local_addr().expect("an address").port());
    std::thread::scope(|scope| {
        for _ in 0..connections {
            let (stream, _) = listener.accept().expect("a connection");
            scope.spawn(move || attend(stream));
        }
    });
}
