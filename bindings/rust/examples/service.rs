//! Lets clients read packages, by signed requests. Usage: service ACL NAME, behind a server with TLS. It prints the port that it serves.

mod by_openssl;

use by_openssl::{sha256, Openssl};
use spki::http::{Head, Nonces, Requests};
use spki::{Guard, Limits, Policy, Question, Request, Signature, Verifier};
use std::io::{self, BufRead, BufReader, Read, Write};
use std::net::{TcpListener, TcpStream};
use std::time::{Duration, SystemTime, UNIX_EPOCH};

/// The most octets of a request that are read. A longer head is 403.
const MOST_OCTETS: u64 = 65_536;

/// Whether the key that has signed a request may read what it asks for: `Some` if it may, and `None` for all else. `head` is the head of the request.
fn grant(guard: &Guard, requests: &Requests, head: &str) -> Option<()> {
    let head = Head::read(head)?;
    let now = SystemTime::now();
    let seconds = now.duration_since(UNIX_EPOCH).ok()?.as_secs();
    let verify = |signature: Signature<'_>| Openssl.verify(signature);
    let proof = requests.check(&head.message(), seconds, verify).ok()?;
    let excluded = ["%", "?", "//", "/."]; // (escape, query, empty part, part that begins with `.`)
    let is_normal = !excluded.iter().any(|part| head.target.contains(part));
    if head.method != "GET" || !is_normal {
        return None;
    }
    let words = [b"packages", &b"read"[..], head.target.as_bytes()];
    let question = Question::new(&proof.sequence, &proof.key, Request::Words(&words), now);
    guard.decide_by(&question, &mut Openssl).ok()?;
    requests.take(&proof, seconds).ok() // (only for a yes: strangers could fill the store of nonces)
}

/// Reads the head of one request, and answers by its status alone. A client that sends nothing for 5 seconds, or no UTF-8, gets no answer.
fn answer(guard: &Guard, requests: &Requests, mut client: TcpStream) -> io::Result<()> {
    client.set_read_timeout(Some(Duration::from_secs(5)))?;
    let mut reader = BufReader::new(client.try_clone()?.take(MOST_OCTETS));
    let mut head = String::new();
    while !head.ends_with("\r\n\r\n") && reader.read_line(&mut head)? > 0 {}
    let status = grant(guard, requests, &head).map_or("403 Forbidden", |()| "200 OK");
    let lines = format!("HTTP/1.1 {status}\r\nContent-Length: 0\r\nConnection: close\r\n\r\n");
    client.write_all(lines.as_bytes())
}

/// Serves until it is killed. Fails for other words, a list that cannot be read or is refused, and if it cannot listen or accept.
fn main() -> Result<(), Box<dyn std::error::Error>> {
    let arguments: Vec<String> = std::env::args().collect();
    let [_, list, name] = &arguments[..] else {
        return Err("usage: service ACL NAME".into());
    };
    let guard = Guard::read(&std::fs::read(list)?, Policy::Strict, Limits::default())?;
    let start = SystemTime::now().duration_since(UNIX_EPOCH)?.as_secs();
    let requests = Requests::new(&[name], Nonces::new(100_000), start, sha256);
    let listener = TcpListener::bind("127.0.0.1:0")?;
    println!("{}", listener.local_addr()?.port());
    for client in listener.incoming() {
        let _ = answer(&guard, &requests, client?); // (a fault of one client ends nothing)
    }
    Ok(())
}
