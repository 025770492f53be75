//! A build cache for one client, whose key TLS has proved. Usage: cache ACL FOLDER KEY SEQUENCE; then lines `read PATH` and `write PATH TEXT`.

mod by_openssl;

use by_openssl::Openssl;
use spki::{Denied, Grant, Guard, Limits, Policy, ProvenKey, Question, Request};
use std::time::SystemTime;
use std::{env, error::Error, fs, io};

/// Whether a path is normal: it begins with `/`, and no part of it is empty, `.` or `..`.
fn is_normal(path: &str) -> bool {
    // (the first part is what is before the first `/`. The empty path has no other)
    let mut parts = path.split('/');
    parts.next() == Some("")
        && parts.clone().count() > 0
        && parts.all(|part| !["", ".", ".."].contains(&part))
}

/// Decides whether the client may do an action, such as `read` or `write`, with a path. The verifier's error is that of the command `openssl`.
fn decide(
    guard: &Guard,
    client: &ProvenKey,
    sequence: &[u8],
    action: &str,
    path: &str,
) -> Result<Grant, Denied<io::Error>> {
    let words = [b"cache", action.as_bytes(), path.as_bytes()];
    let question = Question::new(sequence, client, Request::Words(&words), SystemTime::now());
    guard.decide_by(&question, &mut Openssl)
}

/// Answers each line: `denied`, `written N` (octets), `not written`, what the file has, or `nothing is there`, also for a file that is no UTF-8. The
/// last grant is used again for the same request while it holds. Fails for other arguments, for a list that is refused, for files of the arguments
/// that cannot be read, and for a line that is no UTF-8.
fn main() -> Result<(), Box<dyn Error>> {
    let arguments: Vec<String> = env::args().collect();
    let [_, list, folder, key, sequence] = &arguments[..] else {
        return Err("usage: cache ACL FOLDER KEY SEQUENCE".into());
    };
    let guard = Guard::read(&fs::read(list)?, Policy::Strict, Limits::default())?;
    let (client, sequence) = (ProvenKey::assume(fs::read(key)?), fs::read(sequence)?);
    let mut kept: Option<(String, Grant)> = None; // (the last request, if it was granted)
    for line in io::stdin().lines() {
        let line = line?;
        let mut words = line.splitn(3, ' ');
        let mut next = || words.next().unwrap_or_default();
        let (action, path, text) = (next(), next(), next());
        let (file, request) = (format!("{folder}{path}"), format!("{action} {path}"));
        let now = SystemTime::now();
        if !matches!(&kept, Some((granted, grant)) if *granted == request && grant.holds_at(now)) {
            let decision = decide(&guard, &client, &sequence, action, path);
            kept = decision.ok().map(|grant| (request, grant));
        }
        if !["read", "write"].contains(&action) || !is_normal(path) || kept.is_none() {
            println!("denied");
        } else if action == "write" {
            let outcome = fs::write(file, text).map(|()| format!("written {}", text.len()));
            println!("{}", outcome.unwrap_or("not written".into()));
        } else {
            let content = fs::read_to_string(file);
            println!("{}", content.unwrap_or("nothing is there".into()));
        }
    }
    Ok(())
}
