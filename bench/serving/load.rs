//! load: clients that talk to a server at once, and how many round trips they make in a second.
//!
//! usage: load PORT CLIENTS ROUNDS FIRST LINE..
//!
//! Each client, a thread of its own, connects, sends FIRST with its role in the place of `@` (a for the first client, b for
//! the next) and its number in the place of `#` (1 for the first), and then the lines by turns. It waits for each answer
//! before it sends the next line.
use std::io::{BufRead, BufReader, Write};
use std::net::TcpStream;
use std::sync::Barrier;
use std::time::Instant;

fn main() {
    let words: Vec<String> = std::env::args().collect();
    let (port, clients, rounds) = (&words[1], words[2].parse::<usize>().unwrap(), words[3].parse::<usize>().unwrap());
    let lines = &words[5..];
    let start = Barrier::new(clients + 1);
    let end = Barrier::new(clients + 1);
    std::thread::scope(|scope| {
        for client in 0..clients {
            let first = words[4].replace('@', &char::from(b'a' + client as u8).to_string()).replace('#', &(client + 1).to_string());
            let (start, end) = (&start, &end);
            scope.spawn(move || {
                let mut stream = TcpStream::connect(format!("127.0.0.1:{port}")).unwrap();
                stream.set_nodelay(true).unwrap();
                let mut answers = BufReader::new(stream.try_clone().unwrap());
                let mut answer = String::new();
                writeln!(stream, "{first}").unwrap();
                answers.read_line(&mut answer).unwrap();
                let sent: Vec<String> = lines.iter().map(|line| format!("{line}\n")).collect();
                start.wait();
                for round in 0..rounds {
                    stream.write_all(sent[round % sent.len()].as_bytes()).unwrap();
                    answer.clear();
                    answers.read_line(&mut answer).unwrap();
                }
                end.wait();
            });
        }
        start.wait();
        let began = Instant::now();
        end.wait();
        println!("{:.0}", (clients * rounds) as f64 / began.elapsed().as_secs_f64());
    });
}
