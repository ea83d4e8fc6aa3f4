// `bodies_server ADDRESS FILE`: answers as `bench_server --bodies` does, by the Rust crate and four threads, for benches/compare. To build
// it, a package needs this file as its `src/main.rs`, and `tiny_http = "0.12"` as its one dependency.
use std::fs::File;
use std::io::Read;
use std::sync::Arc;
use std::thread;
use tiny_http::{Method, Request, Response, Server, StatusCode};

fn answer(mut request: Request, name: &str, data: &'static [u8]) {
    let url = request.url().to_string();
    match (request.method().clone(), url.as_str()) {
        (Method::Put, _) | (Method::Post, _) => {
            let (mut buf, mut count) = ([0u8; 8192], 0u64);
            loop {
                match request.as_reader().read(&mut buf) {
                    Ok(0) => break,
                    Ok(n) => count += n as u64,
                    Err(_) => return,
                }
            }
            let _ = request.respond(Response::from_string(count.to_string()));
        }
        (Method::Get, "/identity") | (Method::Get, "/chunked") => {
            let threshold = if url == "/chunked" { 0 } else { usize::MAX };
            let response = Response::new(StatusCode(200), vec![], data, Some(data.len()), None);
            let _ = request.respond(response.with_chunked_threshold(threshold));
        }
        (Method::Get, "/file") | (Method::Get, "/file/chunked") => {
            let threshold = if url == "/file/chunked" { 0 } else { usize::MAX };
            let file = File::open(name).unwrap();
            let _ = request.respond(Response::from_file(file).with_chunked_threshold(threshold));
        }
        _ => {
            let _ = request.respond(Response::empty(404));
        }
    }
}

fn main() {
    let words: Vec<String> = std::env::args().collect();
    let server = Arc::new(Server::http(words[1].as_str()).unwrap());
    let data: &'static [u8] = Box::leak(std::fs::read(&words[2]).unwrap().into_boxed_slice());
    let threads: Vec<_> = (0..4)
        .map(|_| {
            let (server, name) = (server.clone(), words[2].clone());
            thread::spawn(move || {
                for request in server.incoming_requests() {
                    answer(request, &name, data);
                }
            })
        })
        .collect();
    for thread in threads {
        thread.join().unwrap();
    }
}
