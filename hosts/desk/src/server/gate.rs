//! Who may ask: a request to this address, from its own page, with the token.

use super::http::Head;
use std::fs::File;
use std::io::{self, Read};
use std::sync::Mutex;

/// The bytes of a token, which is written in hexadecimal.
const TOKEN_BYTES: usize = 16;

/// What a request must carry.
pub struct Gate {
    token: String,
    host: String,
    /// A key that leads to the page once. A browser is started with it, and everybody sees what programs are started with.
    key: Mutex<Option<String>>,
}

/// What a request that passes may have.
#[derive(Debug, PartialEq, Eq)]
pub enum Pass {
    /// The path after the token.
    Path(String),
    /// The address of the page.
    Address,
}

impl Gate {
    /// The gate of a port, with a token that nobody can guess.
    pub fn new(port: u16) -> io::Result<Gate> {
        Ok(Gate { token: token()?, host: format!("127.0.0.1:{port}"), key: Mutex::new(Some(token()?)) })
    }

    pub fn address(&self) -> String {
        format!("http://{}/{}/", self.host, self.token)
    }

    /// An address that leads to the page once.
    pub fn once(&self) -> String {
        let key = self.key.lock().expect("no thread fails while it looks").clone().unwrap_or_default();
        format!("http://{}/{key}/", self.host)
    }

    /// What the request may have, or why it is refused. `Host` keeps out pages whose name leads here, `Origin` pages from elsewhere.
    pub fn pass(&self, head: &Head) -> Result<Pass, &'static str> {
        if head.values("Host") != [self.host.as_str()] {
            return Err("This address is not served here.");
        }
        let own = format!("http://{}", self.host);
        let origins = head.values("Origin");
        let must_have_one = head.method != "GET";
        if origins.iter().any(|origin| *origin != own) || must_have_one && origins.len() != 1 {
            return Err("Other pages may not ask here.");
        }
        let path = head.path.strip_prefix('/').and_then(|path| path.split_once('/'));
        match path {
            Some((token, path)) if is_same(token, &self.token) => Ok(Pass::Path(path.into())),
            Some((key, "")) if head.method == "GET" && self.is_key(key) => Ok(Pass::Address),
            _ => Err("The token is missing, or was used: use the whole address that tickdrizzle open has printed."),
        }
    }

    /// Whether a text is the key, which is none any more then.
    fn is_key(&self, text: &str) -> bool {
        let mut key = self.key.lock().expect("no thread fails while it looks");
        key.take_if(|key| is_same(text, key)).is_some()
    }
}

/// A text that nobody can guess.
fn token() -> io::Result<String> {
    let mut bytes = [0; TOKEN_BYTES];
    File::open("/dev/urandom")?.read_exact(&mut bytes)?;
    Ok(bytes.iter().map(|byte| format!("{byte:02x}")).collect())
}

/// Whether two texts are equal, in a time that does not tell where they differ.
fn is_same(one: &str, other: &str) -> bool {
    let differences = one.bytes().zip(other.bytes()).fold(0, |seen, (left, right)| seen | (left ^ right));
    one.len() == other.len() && differences == 0
}

#[cfg(test)]
mod tests {
    use super::*;

    /// What the gate says to a request with these headers; `TOKEN` stands for its token.
    fn passes(gate: &Gate, method: &str, path: &str, headers: &[(&str, &str)]) -> bool {
        let headers = headers.iter().map(|(name, value)| format!("{name}: {value}").parse().expect("it is a header"));
        let head = Head { method: method.into(), path: path.replace("TOKEN", &gate.token), headers: headers.collect() };
        gate.pass(&head).is_ok()
    }

    #[test]
    fn tokens_are_long_and_new() {
        let [one, other] = [1, 1].map(|port| Gate::new(port).expect("random bytes can be read"));
        assert_eq!((one.token.len(), one.token == other.token), (32, false));
        assert_eq!(one.address(), format!("http://127.0.0.1:1/{}/", one.token));
    }

    #[test]
    fn the_key_leads_to_the_page_once() {
        let gate = Gate::new(80).expect("random bytes can be read");
        let path = gate.once().replace("http://127.0.0.1:80", "");
        let (host, origin) = (("Host", "127.0.0.1:80"), ("Origin", "http://127.0.0.1:80"));
        assert!(
            !passes(&gate, "GET", &format!("{path}page.css"), &[host])
                && !passes(&gate, "POST", &path, &[host, origin])
        );
        assert!(!passes(&gate, "GET", &path, &[("Host", "evil.example")]));
        assert!(passes(&gate, "GET", &path, &[host]) && !passes(&gate, "GET", &path, &[host]));
        assert!(passes(&gate, "GET", "/TOKEN/", &[host]) && !passes(&gate, "GET", "//", &[host]));
    }

    #[test]
    fn only_the_own_page_with_the_token_passes() {
        let gate = Gate::new(80).expect("random bytes can be read");
        let host = ("Host", "127.0.0.1:80");
        let origin = ("Origin", "http://127.0.0.1:80");
        assert!(passes(&gate, "GET", "/TOKEN/", &[host]));
        assert!(passes(&gate, "GET", "/TOKEN/page.css", &[host, origin]));
        assert!(passes(&gate, "POST", "/TOKEN/ask", &[("host", "127.0.0.1:80"), origin]));
        for path in [
            "/",
            "/TOKEN",
            "TOKEN/",
            "//TOKEN/",
            "/TOKENa/",
            "/TOKE/",
            "/a/TOKEN/",
            "/%54OKEN/",
            "http://127.0.0.1:80/TOKEN/",
        ] {
            assert!(!passes(&gate, "GET", path, &[host]), "{path}");
        }
        let short = format!("/{}/", &gate.token[1..]);
        assert!(!passes(&gate, "GET", &short, &[host]));
        for hosts in
            [&[][..], &["localhost:80"], &["127.0.0.1"], &["127.0.0.1:81"], &["evil.example:80"], &["127.0.0.1:80"; 2]]
        {
            let headers: Vec<_> = hosts.iter().map(|host| ("Host", *host)).collect();
            assert!(!passes(&gate, "GET", "/TOKEN/", &headers), "{hosts:?}");
        }
        for other in ["null", "http://evil.example", "https://127.0.0.1:80", "http://127.0.0.1", "http://127.0.0.1:80/"]
        {
            assert!(!passes(&gate, "GET", "/TOKEN/", &[host, ("Origin", other)]), "{other}");
            assert!(!passes(&gate, "POST", "/TOKEN/ask", &[host, ("Origin", other)]), "{other}");
            assert!(!passes(&gate, "POST", "/TOKEN/ask", &[host, origin, ("Origin", other)]), "{other}");
        }
        assert!(!passes(&gate, "POST", "/TOKEN/ask", &[host]) && !passes(&gate, "PUT", "/TOKEN/ask", &[host]));
    }
}
