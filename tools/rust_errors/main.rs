//! The crate's own server_error.rs and redis_error.rs, asked about errors.
//!
//! Each line of the input is either the text of a server error in hexadecimal, or one of the words reset,
//! denied, timeout, parse, client, type, notfound. Each line of the output has the error's kind, its retry
//! method, and what redirect_node answers.
#![allow(dead_code, unused_imports, unexpected_cfgs)]

mod errors {
    pub mod redis_error;
    pub mod server_error;
    pub(crate) use server_error::Repr;
}
pub use errors::redis_error::{ErrorKind, RedisError, RetryMethod};
use errors::server_error::{ServerError, ServerErrorKind};
use std::io::{self, BufRead};

/// Stands in for the crate's error of its parser.
#[derive(Clone, PartialEq, Debug)]
pub struct ParsingError {
    pub(crate) description: arcstr::ArcStr,
}
impl std::fmt::Display for ParsingError {
    fn fmt(&self, f: &mut std::fmt::Formatter<'_>) -> std::fmt::Result {
        f.write_str(&self.description)
    }
}
impl std::error::Error for ParsingError {}

const KINDS: [ServerErrorKind; 14] = [
    ServerErrorKind::ResponseError,
    ServerErrorKind::ExecAbort,
    ServerErrorKind::BusyLoading,
    ServerErrorKind::NoScript,
    ServerErrorKind::Moved,
    ServerErrorKind::Ask,
    ServerErrorKind::TryAgain,
    ServerErrorKind::ClusterDown,
    ServerErrorKind::CrossSlot,
    ServerErrorKind::MasterDown,
    ServerErrorKind::ReadOnly,
    ServerErrorKind::NotBusy,
    ServerErrorKind::NoSub,
    ServerErrorKind::NoPerm,
];

fn server(hex: &str) -> RedisError {
    let bytes: Vec<u8> = (0..hex.len() / 2)
        .map(|i| u8::from_str_radix(&hex[2 * i..2 * i + 2], 16).unwrap())
        .collect();
    let text = String::from_utf8_lossy(&bytes).into_owned();
    let (code, detail) = match text.split_once(' ') {
        Some((code, detail)) => (code, Some(detail.into())),
        None => (&*text, None),
    };
    ServerError(match KINDS.into_iter().find(|kind| kind.code() == code) {
        Some(kind) => errors::Repr::Known { kind, detail },
        None => errors::Repr::Extension { code: code.into(), detail },
    })
    .into()
}

fn main() {
    for line in io::stdin().lock().lines() {
        let line = line.unwrap();
        let error: RedisError = match line.as_str() {
            "reset" => io::Error::from(io::ErrorKind::ConnectionReset).into(),
            "denied" => io::Error::from(io::ErrorKind::PermissionDenied).into(),
            "timeout" => io::Error::from(io::ErrorKind::TimedOut).into(),
            "parse" => ParsingError { description: "".into() }.into(),
            "client" => (ErrorKind::Client, "").into(),
            "type" => (ErrorKind::UnexpectedReturnType, "").into(),
            "notfound" => (ErrorKind::ClusterConnectionNotFound, "").into(),
            "io" => (ErrorKind::Io, "").into(),
            hex => server(hex),
        };
        println!("{:?} {:?} {:?}", error.kind(), error.retry_method(), error.redirect_node());
    }
}
