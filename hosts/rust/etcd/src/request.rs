//! `Request`: posts requests to nodes, by libcurl; `Body`: that of an answer.

use crate::etcd_options::{EtcdOptions, Tls};
use curl::Error;
use curl::easy::{Easy2, Handler, HttpVersion, List, WriteError};
use std::time::Duration;

/// The status code of HTTP.
pub(crate) type Status = u32;

/// A handle of libcurl that posts JSON. It keeps its connections from one request to the next; the handler takes
/// the answer.
pub(crate) struct Request<H> {
    easy: Easy2<H>,
}

impl<H: Handler> Request<H> {
    pub(crate) fn new(handler: H, options: &EtcdOptions) -> Result<Request<H>, Error> {
        let mut easy = Easy2::new(handler);
        easy.post(true)?;
        easy.http_version(HttpVersion::V11)?;
        // Else libcurl would use a proxy that the environment names.
        easy.proxy("")?;
        easy.tcp_nodelay(true)?;
        easy.connect_timeout(options.timeout)?;
        if let Some(tls) = &options.tls {
            take_certificates(&mut easy, tls)?;
        }
        Ok(Request { easy })
    }

    /// Posts a body to a URL, and returns once the whole answer has come.
    pub(crate) fn post(
        &mut self,
        url: &str,
        token: Option<&str>,
        body: &[u8],
        timeout: Duration,
    ) -> Result<Status, Error> {
        self.easy.url(url)?;
        // libcurl counts milliseconds, and takes zero for no limit.
        self.easy.timeout(timeout.max(Duration::from_millis(1)))?;
        self.easy.http_headers(headers(token)?)?;
        self.easy.post_fields_copy(body)?;
        self.easy.perform()?;
        self.easy.response_code()
    }

    pub(crate) fn handler(&mut self) -> &mut H {
        self.easy.get_mut()
    }
}

fn take_certificates<H>(easy: &mut Easy2<H>, tls: &Tls) -> Result<(), Error> {
    easy.cainfo(&tls.authority)?;
    if let Some((certificate, key)) = &tls.certificate {
        easy.ssl_cert(certificate)?;
        easy.ssl_key(key)?;
    }
    Ok(())
}

fn headers(token: Option<&str>) -> Result<List, Error> {
    let mut headers = List::new();
    headers.append("Content-Type: application/json")?;
    // Else libcurl would wait with a large body until the node asks for it.
    headers.append("Expect:")?;
    if let Some(token) = token {
        headers.append(&format!("Authorization: {token}"))?;
    }
    Ok(headers)
}

/// The body of an answer, as far as it has come.
#[derive(Debug, Default)]
pub(crate) struct Body(Vec<u8>);

impl Body {
    pub(crate) fn clear(&mut self) {
        self.0.clear();
    }

    pub(crate) fn bytes(&self) -> &[u8] {
        &self.0
    }
}

impl Handler for Body {
    fn write(&mut self, data: &[u8]) -> Result<usize, WriteError> {
        self.0.extend_from_slice(data);
        Ok(data.len())
    }
}
